//! Calls at and past the limits of the table of refusals.

use super::alignment::LONGEST_OPERATION;
use super::rng::Rng;
use crate::model::{Family, Ledger, Record, Strand};

const PLACE_LIMIT: u32 = 536_870_911;

pub fn add(rng: &mut Rng, family: &mut Family) {
    match rng.weighted(&[6, 1, 14, 14, 14, 14, 12, 10, 8, 10, 3]) {
        0 => family.options.min_duplex_length = rng.pick(&[2_147_483_648, u64::MAX]),
        1 => fill(rng, family),
        6 => with_strand(rng, family, uneven),
        7 => with_strand(rng, family, odd_base),
        8 => {
            family.room = rng.pick(&[
                [2_047, 512, 8],
                [2_048, 511, 8],
                [2_048, 512, 7],
                [0; 3],
                [2_100, 600, 16],
            ])
        }
        9 => rewrite_as_stretched(rng, family),
        10 => {
            if let [Some(r1), Some(r2)] = &mut family.strands {
                odd_base(rng, r1);
                uneven(rng, r2);
            }
        }
        kind => with_record(rng, family, kind),
    }
}

/// Up to the limits of refusal 2, and one past them.
fn fill(rng: &mut Rng, family: &mut Family) {
    if rng.chance(50) {
        let words = 8_192 + rng.index(2);
        family.words.resize(words.max(family.words.len()), 16);
        return;
    }
    let records = 512 + rng.index(2);
    while family.records.len() < records {
        family.records.push(Record {
            flags: 257,
            name: 0,
            verdict: true,
            rank: 0,
            clipped_length: 0,
            position: 0,
            start: 0,
            count: 0,
        });
    }
}

fn with_record(rng: &mut Rng, family: &mut Family, kind: usize) {
    if family.records.is_empty() {
        return;
    }
    let at = rng.index(family.records.len());
    let words = family.words.len() as u32;
    let record = &mut family.records[at];
    match kind {
        2 => {
            (record.start, record.count) = rng.pick(&[
                (words, 1),
                (words, 0),
                (words + 1, 0),
                (0, 65),
                (u32::MAX, 1),
                (u32::MAX - 1, 2 + words.min(3)),
                (record.start, record.count.wrapping_add(words)),
            ]);
            if record.count == 0 {
                record.clipped_length = 0;
            }
        }
        3 => {
            let place = record.start as usize + rng.range(0, 1) as usize;
            if let Some(word) = family.words.get_mut(place) {
                *word = rng.pick(&[0, 8, 9 + 16, 15 + 16, u32::MAX, *word % 16]);
            }
        }
        4 => {
            record.clipped_length =
                rng.pick(&[record.clipped_length.wrapping_add(1), 1_025, 0, u32::MAX])
        }
        _ => record.position = rng.pick(&[0, PLACE_LIMIT, PLACE_LIMIT + 1, u32::MAX]),
    }
}

/// One record of many or of very long operations, just inside or just outside.
fn rewrite_as_stretched(rng: &mut Rng, family: &mut Family) {
    if family.records.is_empty() {
        return;
    }
    let at = rng.index(family.records.len());
    let start = family.words.len() as u32;
    let skip = LONGEST_OPERATION * 16 + 3;
    let (words, bases): (Vec<u32>, u32) = match rng.weighted(&[1, 1, 1, 1]) {
        0 => (vec![16; 64], 64),
        1 => (vec![skip, skip, 16], 1),
        2 => (vec![16, skip, skip, 16], 2),
        _ => (vec![1_024 * 16], 1_024),
    };
    let record = &mut family.records[at];
    (record.start, record.count, record.clipped_length) = (start, words.len() as u32, bases);
    family.words.extend(words);
}

fn with_strand(rng: &mut Rng, family: &mut Family, change: impl Fn(&mut Rng, &mut Strand)) {
    let side = rng.index(2);
    if let Some(strand) = &mut family.strands[side] {
        change(rng, strand);
    }
}

fn odd_base(rng: &mut Rng, strand: &mut Strand) {
    if let Some(last) = strand.bases.last_mut() {
        *last = rng.pick(b"acgt.-RY@");
    }
}

fn uneven(rng: &mut Rng, strand: &mut Strand) {
    match rng.index(7) {
        0 => strand.quals.push(0),
        1 => strand.depths.push(0),
        2 => strand.errors.push(0),
        3 => {
            strand.quals.pop();
        }
        4 => strand.bases.push(b'x'),
        5 => lengthen(strand, 1_025),
        _ => lengthen(strand, 1_024),
    }
}

fn lengthen(strand: &mut Strand, length: usize) {
    strand.bases.resize(length, b'A');
    strand.quals.resize(length, 30);
    strand.depths.resize(length, 1);
    strand.errors.resize(length, 0);
}

/// Figures at the ledger's own limits.
pub fn ledger(rng: &mut Rng) -> Ledger {
    let mut ledger = Ledger(std::array::from_fn(|_| rng.range(0, 1_000)));
    match rng.weighted(&[2, 3, 2, 2, 2, 2, 2]) {
        0 => {}
        1 => ledger.0[0] = 1 << 28,
        2 => ledger.0[0] = (1 << 28) - 1,
        3 => ledger.0[0] = (1 << 28) + 1,
        4 => ledger.0[rng.range(1, 19) as usize] = 1 << 41,
        5 => ledger.0[rng.range(1, 19) as usize] = (1 << 41) + 1,
        _ => {
            ledger.0[0] = 1 << 28;
            ledger.0[rng.range(1, 19) as usize] = u64::MAX;
        }
    }
    ledger
}
