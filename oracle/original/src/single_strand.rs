// In place of the single-strand caller: it hands over the strands that were given, R1's first.

use crate::base_builder::TieRule;
use crate::phred::PhredScore;
use anyhow::Result;
use fgumi_sam::clipper::cigar_utils::{self, SimplifiedCigar};
use std::collections::VecDeque;

pub struct VanillaUmiConsensusCaller {
    pub(crate) strands: VecDeque<Option<crate::trace::Columns>>,
}

impl VanillaUmiConsensusCaller {
    pub fn new(_prefix: String, _group: String, _options: VanillaUmiConsensusOptions) -> Self {
        Self { strands: VecDeque::new() }
    }

    pub fn clear(&mut self) {
        self.strands.clear();
    }

    pub(crate) fn consensus_call(
        &mut self,
        umi: &str,
        _reads: Vec<SourceRead>,
    ) -> Result<Option<VanillaConsensusRead>> {
        let strand = self.strands.pop_front().expect("asked once for each side");
        if strand.is_none() {
            crate::trace::note(|trace| trace.strand_absent = true);
        }
        Ok(strand.map(|columns| VanillaConsensusRead {
            id: umi.to_string(),
            bases: columns.bases,
            quals: columns.quals,
            depths: columns.depths,
            errors: columns.errors,
            source_reads: None,
            methylation: None,
        }))
    }
}
