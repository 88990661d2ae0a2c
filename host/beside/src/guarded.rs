//! Lent columns with guards on both sides, and a look at every place after a call.

use codec_host::{Lent, Results, Samples};
use oracle::model::Ledger;

/// Cells before and behind a lent column.
const GUARD: usize = 24;
/// Longest column that is lent.
const MOST: usize = 2_100;

/// One column: a stretch of its cells is lent, all others are guards.
pub struct Guarded<T> {
    pattern: Vec<T>,
    cells: Vec<T>,
    length: usize,
}

impl<T: Copy + PartialEq> Guarded<T> {
    fn new(cell: impl Fn(u64) -> T) -> Self {
        Self::of(MOST, cell)
    }

    /// Cells of which no two near ones are alike, so many of them for lending.
    pub fn of(most: usize, cell: impl Fn(u64) -> T) -> Self {
        let mix = |at: u64| at.wrapping_mul(0x9e37_79b9_7f4a_7c15).rotate_left(23);
        let pattern: Vec<T> = (0..(most + 2 * GUARD) as u64).map(|at| cell(mix(at + 1))).collect();
        Self { cells: pattern.clone(), pattern, length: 0 }
    }

    /// Lends so many cells, all as they were at first.
    pub fn lend(&mut self, length: usize) -> &mut [T] {
        self.cells.copy_from_slice(&self.pattern);
        self.length = length;
        &mut self.cells[GUARD..GUARD + length]
    }

    /// The first places of what was lent.
    pub fn first(&self, places: usize) -> &[T] {
        &self.cells[GUARD..GUARD + places.min(self.length)]
    }

    /// Whether all but the first places of what was lent, guards included, is as it was.
    fn untouched_but(&self, places: usize) -> bool {
        let written = GUARD + places.min(self.length);
        self.cells[..GUARD] == self.pattern[..GUARD]
            && self.cells[written..] == self.pattern[written..]
    }

    /// Whether the first places hold this, and nothing else was touched.
    pub fn holds(&self, answer: &[T]) -> bool {
        self.first(answer.len()) == answer && self.untouched_but(answer.len())
    }
}

/// The four columns of one strand.
pub struct Strand {
    bases: Guarded<u8>,
    quals: Guarded<u8>,
    depths: Guarded<u16>,
    errors: Guarded<u16>,
}

impl Strand {
    pub fn new(salt: u64) -> Self {
        Self {
            bases: Guarded::new(|cell| (cell ^ salt) as u8),
            quals: Guarded::new(|cell| (cell ^ salt ^ 0x55) as u8),
            depths: Guarded::new(|cell| (cell ^ salt) as u16),
            errors: Guarded::new(|cell| (cell ^ salt ^ 0x5555) as u16),
        }
    }

    pub fn lend(&mut self, lengths: [usize; 4]) -> Results<'_> {
        let [bases, quals, depths, errors] = lengths;
        Results {
            bases: self.bases.lend(bases),
            quals: self.quals.lend(quals),
            depths: self.depths.lend(depths),
            errors: self.errors.lend(errors),
        }
    }

    pub fn holds(&self, answer: &oracle::model::Strand) -> bool {
        self.bases.holds(&answer.bases)
            && self.quals.holds(&answer.quals)
            && self.depths.holds(&answer.depths)
            && self.errors.holds(&answer.errors)
    }
}

/// The samples' ledgers between guards.
#[repr(C)]
pub struct GuardedSamples {
    before: [u64; GUARD],
    pub lent: Samples,
    behind: [u64; GUARD],
}

impl GuardedSamples {
    const CELL: u64 = 0x5aa5_1221_c33c_8778;

    pub fn new(ledgers: &[Ledger]) -> Self {
        let lent = Samples::from(std::array::from_fn(|at| ledgers[at / 20].0[at % 20]));
        Self { before: [Self::CELL; GUARD], lent, behind: [Self::CELL; GUARD] }
    }

    /// Whether the ledgers are these, and no guard was touched.
    pub fn holds(&self, ledgers: &[Ledger]) -> bool {
        let guards = self.before.iter().chain(&self.behind);
        ledgers.iter().flat_map(|ledger| &ledger.0).eq(self.lent.counts())
            && guards.copied().all(|cell| cell == Self::CELL)
    }
}

/// Lengths of the fifteen lent columns, in the order of the call.
pub type Lengths = [usize; 15];

pub struct Room {
    pub strands: [Strand; 3],
    listed: Guarded<u32>,
    reasons: Guarded<u8>,
    marks: Guarded<u64>,
}

impl Room {
    pub fn new() -> Self {
        Self {
            strands: [1, 2, 3].map(Strand::new),
            listed: Guarded::new(|cell| cell as u32),
            reasons: Guarded::new(|cell| cell as u8),
            marks: Guarded::new(|cell| cell),
        }
    }

    pub fn lend(&mut self, lengths: &Lengths) -> Lent<'_> {
        let four = |at: usize| [lengths[at], lengths[at + 1], lengths[at + 2], lengths[at + 3]];
        let [duplex, r1, r2] = &mut self.strands;
        Lent {
            duplex: duplex.lend(four(0)),
            r1: r1.lend(four(4)),
            r2: r2.lend(four(8)),
            listed: self.listed.lend(lengths[12]),
            reasons: self.reasons.lend(lengths[13]),
            marks: self.marks.lend(lengths[14]),
        }
    }

    /// Whether list and marks are these, place by place, and nothing beyond was touched.
    pub fn lists(&self, list: &[(usize, u8)], marks: &[u64]) -> bool {
        let listed = self.listed.first(list.len()).iter().map(|&record| record as usize);
        listed.zip(self.reasons.first(list.len()).iter().copied()).eq(list.iter().copied())
            && self.listed.untouched_but(list.len())
            && self.reasons.untouched_but(list.len())
            && self.marks.holds(marks)
    }
}

impl Default for Room {
    fn default() -> Self {
        Self::new()
    }
}
