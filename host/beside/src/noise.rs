//! Hostile families: noise, and valid ones with one thing broken.

mod ledgers;

use crate::guarded::Lengths;
use crate::rng::Rng;
use ledgers::{books, break_ledger, sample, small_ledger};
use oracle::model::{Books, Family, Ledger, Options, Record, Strand};
use oracle::plain::lanes::Lanes;

pub use ledgers::{SHEET_MOST, count, ledgers, sheet_room};

/// The least lengths that are no refusal.
pub const ROOM: Lengths = [
    2_048, 2_048, 2_048, 2_048, 2_048, 2_048, 2_048, 2_048, 2_048, 2_048, 2_048, 2_048, 512, 512, 8,
];

/// A family, its sample, the lengths of what is lent, and the ledgers: one hostile call.
#[derive(Clone, Debug)]
pub struct Hostile {
    pub family: Family,
    pub sample: u32,
    pub lengths: Lengths,
    pub books: Books,
}

impl Hostile {
    /// The second reader knows the shortest column of each kind.
    pub fn settle(mut self) -> Self {
        let shortest = |of: &[usize]| of.iter().min().map_or(0, |&length| length as u64);
        let l = &self.lengths;
        self.family.room = [shortest(&l[..12]), shortest(&l[12..14]), l[14] as u64];
        self
    }
}

/// Noise with a leaning to the limits, so that some of it gets past the refusals.
pub fn noise(rng: &mut Rng) -> Hostile {
    let words = sized(rng, &[0, 64, 8_191, 8_192, 8_193]);
    let words: Vec<u32> = (0..words).map(|_| word(rng)).collect();
    let records = sized(rng, &[0, 2, 4, 511, 512, 513, 600]);
    let records = (0..records).map(|_| record(rng, words.len() as u32)).collect();
    let strands = [(); 2].map(|()| rng.chance(90).then(|| strand(rng)));
    let family = Family { records, words, options: options(rng), strands, room: [0; 3] };
    let lengths = if rng.chance(80) { ROOM } else { ROOM.map(|least| near(rng, least)) };
    let ledger = |rng: &mut Rng| match rng.chance(80) {
        true => small_ledger(rng),
        false => Ledger([(); 20].map(|()| count(rng))),
    };
    let sample = sample(rng);
    let books = books(rng, sample, ledger);
    Hostile { family, sample, lengths, books }.settle()
}

/// Mostly few, otherwise one of these.
fn sized(rng: &mut Rng, edges: &[usize]) -> usize {
    if rng.chance(92) { rng.below(12) } else { rng.pick(edges) }
}

fn near(rng: &mut Rng, length: usize) -> usize {
    let any = rng.below(length + 20);
    let picked = [length - 1, length, length + 1, length + 17, any, 0];
    picked[rng.below(picked.len())]
}

fn word(rng: &mut Rng) -> u32 {
    let any = rng.draw() as u32;
    let length = 1 + rng.below(30) as u32;
    let long = rng.pick(&[0, 1_023, 1_024, 1_025, (1 << 28) - 1]);
    let code = rng.below(9) as u32;
    match rng.below(20) {
        0 => any,
        1 => long * 16 + code,
        2 => length * 16 + any % 16,
        _ => length * 16 + rng.pick(&[0, 0, 0, code]),
    }
}

fn record(rng: &mut Rng, words: u32) -> Record {
    let any = rng.draw();
    let some = |rng: &mut Rng, bound: usize| rng.below(bound) as u32;
    let flags = rng.pick(&[65, 129, 81, 145, 1, 17, 0, 65 + 256, 129 + 2_048, any as u16]);
    let start = some(rng, words as usize + 1);
    let start = rng.pick(&[0, start, start, start, words, any as u32]);
    let count = some(rng, 4);
    let count =
        rng.pick(&[1, 1, count, count, 63, 64, 65, words.wrapping_sub(start), (any >> 32) as u32]);
    let clipped = some(rng, 40);
    let position = 100 + some(rng, 12);
    Record {
        flags,
        name: if rng.chance(95) { some(rng, 4) } else { any as u32 },
        verdict: rng.chance(90),
        rank: if rng.chance(50) { some(rng, 5) as i32 - 2 } else { any as i32 },
        clipped_length: rng.pick(&[clipped, clipped, 10, 1_024, 1_025, any as u32]),
        position: match rng.below(12) {
            0 => rng.pick(&[0, 1, 536_870_911, 536_870_912, u32::MAX]),
            1 => any as u32,
            _ => position,
        },
        start,
        count,
    }
}

fn options(rng: &mut Rng) -> Options {
    let any = rng.draw();
    let few = rng.below(4) as u64;
    let quality = |rng: &mut Rng| rng.chance(50).then_some(rng.draw() as u8);
    Options {
        min_reads: rng.pick(&[few, few, 0, 1, any, u64::MAX]),
        cap: rng.pick(&[None, None, Some(few), Some(any), Some(u64::MAX)]),
        min_duplex_length: match rng.below(12) {
            0 => rng.pick(&[2_147_483_647, 2_147_483_648, 1 << 63, u64::MAX]),
            1 => any,
            _ => few,
        },
        legacy: rng.chance(40),
        outer_length: rng.pick(&[few, 0, any, u64::MAX]),
        outer_quality: quality(rng),
        single_strand_quality: quality(rng),
        max_disagreements: rng.pick(&[few, any, u64::MAX, u64::MAX]),
        max_rate: rate(rng),
    }
}

pub fn rate(rng: &mut Rng) -> f64 {
    let any = f64::from_bits(rng.draw());
    let between = rng.below(101) as f64 / 100.0;
    rng.pick(&[1.0, between, between, any, f64::NAN, -1.0, -0.0, f64::INFINITY])
}

pub fn strand(rng: &mut Rng) -> Strand {
    let length = if rng.chance(95) { rng.below(30) } else { rng.pick(&[1_023, 1_024, 1_025]) };
    let odd = rng.chance(3);
    let mut strand = Strand {
        bases: (0..length)
            .map(|_| if odd { rng.draw() as u8 } else { rng.pick(b"ACGTACGTNn") })
            .collect(),
        quals: (0..length).map(|_| rng.draw() as u8 % 97).collect(),
        depths: (0..length).map(|_| rng.draw() as u16).collect(),
        errors: (0..length).map(|_| rng.draw() as u16).collect(),
    };
    if rng.chance(4) {
        stretch(rng, &mut strand);
    }
    strand
}

/// One column one place longer or shorter.
fn stretch(rng: &mut Rng, strand: &mut Strand) {
    let longer = rng.chance(50);
    match (rng.below(4), longer) {
        (0, true) => strand.bases.push(b'A'),
        (1, true) => strand.quals.push(30),
        (2, true) => strand.depths.push(1),
        (3, true) => strand.errors.push(0),
        (0, false) => _ = strand.bases.pop(),
        (1, false) => _ = strand.quals.pop(),
        (2, false) => _ = strand.depths.pop(),
        _ => _ = strand.errors.pop(),
    }
}

/// A valid family with one thing broken, or with nothing broken where the break hits nothing.
pub fn broken(rng: &mut Rng, family: Family) -> Hostile {
    let sample = sample(rng);
    let books = books(rng, sample, small_ledger);
    let mut hostile = Hostile { family, sample, lengths: ROOM, books };
    let Hostile { family, lengths, books, .. } = &mut hostile;
    match rng.below(14) {
        0..4 => break_record(rng, family),
        4 => break_word(rng, family),
        5 => family.options = options(rng),
        6 => family.strands[rng.below(2)] = rng.chance(70).then(|| strand(rng)),
        7 => family
            .strands
            .iter_mut()
            .flatten()
            .take(1 + rng.below(2))
            .for_each(|strand| stretch(rng, strand)),
        8 => {
            let strand = family.strands[rng.below(2)].as_mut();
            if let Some(base) = strand.and_then(|strand| strand.bases.first_mut()) {
                *base = rng.draw() as u8;
            }
        }
        9 | 10 => {
            let column = rng.below(15);
            lengths[column] = near(rng, ROOM[column]);
        }
        11 => break_ledger(rng, &mut books.run),
        own => {
            if let Some(ledger) = books.samples.get_mut(sample as usize) {
                break_ledger(rng, ledger);
            }
            if own == 13 {
                break_ledger(rng, &mut books.run);
            }
        }
    }
    hostile.settle()
}

fn break_record(rng: &mut Rng, family: &mut Family) {
    if family.records.is_empty() {
        return;
    }
    let other = record(rng, family.words.len() as u32);
    let at = rng.below(family.records.len());
    let record = &mut family.records[at];
    match rng.below(10) {
        0 => record.flags = other.flags,
        1 => record.flags ^= 1 << rng.below(12),
        2 => record.name = other.name,
        3 => record.verdict = !record.verdict,
        4 => record.rank = other.rank,
        5 => record.clipped_length = other.clipped_length,
        6 => record.position = other.position,
        7 => record.start = other.start,
        8 => record.count = other.count,
        _ => *record = other,
    }
}

/// A dispatcher with counts at their edges, and a lane to add to.
pub fn lanes(rng: &mut Rng) -> (Lanes, u32) {
    let edges = [0, 0, 0, 1, 65_534, 65_535];
    let lane = |rng: &mut Rng| rng.pick(&[0, 1, 2, 3, 4, 5, 6, 7, 7, 8, 9, u32::MAX]);
    let mut waiting = [(); 8].map(|()| rng.pick(&edges));
    if rng.chance(20) {
        waiting = [0; 8];
        waiting[rng.below(8)] = rng.pick(&edges);
    }
    (Lanes { waiting, last: lane(rng) }, lane(rng))
}

fn break_word(rng: &mut Rng, family: &mut Family) {
    if !family.words.is_empty() {
        let at = rng.below(family.words.len());
        family.words[at] = word(rng);
    }
}
