// Included as the last line of the original's module, to reach what is private there.

use crate::trace::{Columns, Selected, Trace};

/// Everything the original said and left behind for one family.
pub struct Seen {
    pub trace: Trace,
    pub marks: Vec<bool>,
    /// The caller's counters after the call.
    pub stats: CodecConsensusStats,
    pub result: std::result::Result<usize, CodecConsensusError>,
}

/// A caller that goes on from family to family through its own front door, reject tracking on; its counters go with it.
pub struct LastingCaller(CodecConsensusCaller);

impl LastingCaller {
    pub fn new(stats: CodecConsensusStats) -> Self {
        let caller = CodecConsensusCaller::new_with_rejects_tracking;
        let mut caller = caller(String::new(), String::new(), CodecConsensusOptions::default(), true);
        caller.stats = stats;
        Self(caller)
    }

    /// One family under these options.
    pub fn call(
        &mut self,
        options: CodecConsensusOptions,
        strands: [Option<Columns>; 2],
        records: &[RawRecord],
    ) -> Seen {
        let caller = &mut self.0;
        caller.options = options;
        caller.ss_caller.strands = strands.into();
        let result = caller.consensus_reads_raw(records).map(|output| output.count);
        caller.clear_rejected_reads();
        let (marks, stats) = (caller.reject_mask.clone(), caller.stats.clone());
        Seen { trace: crate::trace::take(), marks, stats, result }
    }
}

/// One family through a caller of its own.
pub fn call_family(
    options: CodecConsensusOptions,
    strands: [Option<Columns>; 2],
    records: &[RawRecord],
) -> Seen {
    LastingCaller::new(CodecConsensusStats::default()).call(options, strands, records)
}

/// A caller made once, reject tracking on, so that a family's call can be repeated with nothing around it.
pub struct FamilyCalls(CodecConsensusCaller);

impl FamilyCalls {
    pub fn new(options: CodecConsensusOptions) -> Self {
        let caller = CodecConsensusCaller::new_with_rejects_tracking;
        Self(caller(String::new(), String::new(), options, true))
    }

    /// Strands for the calls to come, R1's and R2's in turn, and nothing left from the calls before.
    pub fn hand_over(&mut self, strands: impl IntoIterator<Item = Option<Columns>>) {
        self.0.ss_caller.strands.clear();
        self.0.ss_caller.strands.extend(strands);
    }

    /// How many duplexes the call makes.
    pub fn call(&mut self, records: &[RawRecord]) -> std::result::Result<usize, CodecConsensusError> {
        self.0.consensus_reads_raw(records).map(|output| output.count)
    }
}

/// Combining alone, made ready once so that a call can be repeated with nothing around it.
pub struct CombiningAlone {
    caller: CodecConsensusCaller,
    strands: [SingleStrandConsensus; 2],
}

/// What the original returns, kept shut: taking its columns out is not part of a call.
pub struct Duplex(SingleStrandConsensus, DuplexBaseTally);

impl CombiningAlone {
    pub fn new(options: CodecConsensusOptions, first: Columns, second: Columns) -> Self {
        let caller = CodecConsensusCaller::new(String::new(), String::new(), options);
        Self { caller, strands: [first, second].map(from_columns) }
    }

    pub fn call(&self) -> std::result::Result<Duplex, CodecConsensusError> {
        let [first, second] = &self.strands;
        let (duplex, tally) = self.caller.build_duplex_consensus_from_padded(first, second)?;
        Ok(Duplex(duplex, tally))
    }
}

/// Combining alone: the duplex with the tallies (both called, of these unequal), or the Rust's error.
pub fn combine_alone(
    options: CodecConsensusOptions,
    first: Columns,
    second: Columns,
) -> std::result::Result<(Columns, u64, u64), CodecConsensusError> {
    let Duplex(duplex, tally) = CombiningAlone::new(options, first, second).call()?;
    Ok((to_columns(&duplex), tally.bases_emitted, tally.disagreement_bases))
}

fn from_columns(columns: Columns) -> SingleStrandConsensus {
    SingleStrandConsensus {
        bases: columns.bases,
        quals: columns.quals,
        depths: columns.depths,
        errors: columns.errors,
        raw_read_count: 0,
        ref_start: 0,
        ref_end: 0,
        is_negative_strand: false,
    }
}

fn to_columns(strand: &SingleStrandConsensus) -> Columns {
    Columns {
        bases: strand.bases.clone(),
        quals: strand.quals.clone(),
        depths: strand.depths.clone(),
        errors: strand.errors.clone(),
    }
}

fn trace_columns(columns: [&SingleStrandConsensus; 3]) {
    if crate::trace::is_silent() {
        return;
    }
    crate::trace::note(|trace| trace.columns = Some(columns.map(to_columns)));
}

fn trace_selected(
    r1: &[ClippedRecordInfo],
    r2: &[ClippedRecordInfo],
    window: (usize, usize),
    length: usize,
    r1_is_negative: bool,
) {
    if crate::trace::is_silent() {
        return;
    }
    let kept = [r1, r2].map(|side| side.iter().map(|info| info.raw_idx).collect());
    let selected = Selected { kept, window, length, r1_is_negative };
    crate::trace::note(|trace| trace.selected = Some(selected));
}
