//! Cuts a family down while it still shows a difference.

use crate::answers::written;
use crate::model::{Call, Family, Strand};

/// The smallest call found within so many tries.
pub fn smallest(call: &Call, mut tries: usize, differs: impl Fn(&Call) -> bool) -> Call {
    let mut best = call.clone();
    loop {
        let weight = weight(&best);
        let smaller = candidates(&best).into_iter().find(|candidate| {
            let lighter = tries > 0 && self::weight(candidate) < weight;
            tries -= usize::from(lighter);
            lighter && differs(candidate)
        });
        match smaller {
            Some(candidate) => best = candidate,
            None => return best,
        }
    }
}

/// Every step makes the text shorter, or keeps its length and comes earlier in the alphabet.
fn weight(call: &Call) -> (usize, String) {
    let text = written(std::slice::from_ref(call));
    (text.len(), text)
}

fn candidates(call: &Call) -> Vec<Call> {
    let mut found = vec![
        Call { ledger: None, ..call.clone() },
        Call { sample: None, ..call.clone() },
        Call { sample_ledgers: Vec::new(), ..call.clone() },
    ];
    for place in 0..call.sample_ledgers.len() {
        let mut fewer = call.clone();
        fewer.sample_ledgers.remove(place);
        found.push(fewer);
    }
    let mut offer = |change: &dyn Fn(&mut Family)| {
        let mut candidate = call.clone();
        change(&mut candidate.family);
        found.push(candidate);
    };
    let names: Vec<u32> = call.family.records.iter().map(|record| record.name).collect();
    for part in names.chunks(names.len().div_ceil(4).max(1)) {
        offer(&|family| family.records.retain(|record| !part.contains(&record.name)));
    }
    offer(&compact);
    for name in &names {
        offer(&|family| family.records.retain(|record| record.name != *name));
    }
    for record in 0..names.len() {
        offer(&|family| {
            family.records.remove(record);
        });
    }
    offer(&|family| family.strands = family.strands.clone().map(|s| s.map(|s| half(&s))));
    for side in 0..2 {
        offer(&|family| family.strands[side] = family.strands[side].as_ref().map(half));
        offer(&|family| family.strands[side] = family.strands[side].as_ref().map(one_less));
        offer(&|family| family.strands[side] = family.strands[side].as_ref().map(plain_figures));
        offer(&|family| family.strands[side] = None);
    }
    simpler_options().iter().for_each(|change| offer(change));
    for record in 0..names.len() {
        offer(&|family| family.records[record].rank = 0);
        offer(&|family| family.records[record].name = record as u32 / 2);
        offer(&|family| family.records[record].flags &= 1 + 16 + 64 + 256 + 2_048);
    }
    found
}

fn simpler_options() -> [fn(&mut Family); 9] {
    [
        |family| family.options.min_reads = 1,
        |family| family.options.cap = None,
        |family| family.options.min_duplex_length = 1,
        |family| family.options.legacy = false,
        |family| family.options.outer_length = 0,
        |family| family.options.outer_quality = None,
        |family| family.options.single_strand_quality = None,
        |family| family.options.max_disagreements = u64::MAX,
        |family| family.options.max_rate = 1.0,
    ]
}

fn half(strand: &Strand) -> Strand {
    cut(strand, strand.bases.len() / 2)
}

fn one_less(strand: &Strand) -> Strand {
    cut(strand, strand.bases.len().saturating_sub(1))
}

fn cut(strand: &Strand, length: usize) -> Strand {
    let mut shorter = strand.clone();
    shorter.bases.truncate(length);
    shorter.quals.truncate(length);
    shorter.depths.truncate(length);
    shorter.errors.truncate(length);
    shorter
}

fn plain_figures(strand: &Strand) -> Strand {
    Strand {
        bases: strand.bases.clone(),
        quals: vec![30; strand.quals.len()],
        depths: vec![1; strand.depths.len()],
        errors: vec![0; strand.errors.len()],
    }
}

/// Leaves out the words that no record points at.
fn compact(family: &mut Family) {
    let parts: Vec<Option<Vec<u32>>> = family
        .records
        .iter()
        .map(|record| family.operations(record).map(<[u32]>::to_vec))
        .collect();
    if parts.iter().all(Option::is_some) {
        family.words.clear();
        for (record, part) in family.records.iter_mut().zip(parts.into_iter().flatten()) {
            record.start = family.words.len() as u32;
            family.words.extend(part);
        }
    }
}
