//! Alignments of one side: a stretch of reference with gaps, then cut, clipped and split.

use super::rng::Rng;

/// Length and code.
pub type Operation = (u32, u8);

const M: u8 = 0;
pub const I: u8 = 1;
const D: u8 = 2;
const N: u8 = 3;
pub const S: u8 = 4;
const H: u8 = 5;
const P: u8 = 6;

pub const LONGEST_OPERATION: u32 = (1 << 28) - 1;

#[derive(Debug, Clone)]
pub struct Alignment {
    pub position: i64,
    pub operations: Vec<Operation>,
}

/// A gap behind reference position `at`; D and N span what follows it.
#[derive(Debug, Clone, Copy)]
pub struct Gap {
    pub at: i64,
    pub operation: Operation,
}

pub fn takes_read(code: u8) -> bool {
    matches!(code, 0 | 1 | 4 | 7 | 8)
}

fn takes_reference(code: u8) -> bool {
    matches!(code, 0 | 2 | 3 | 7 | 8)
}

pub fn gap(rng: &mut Rng, near: &[i64]) -> Gap {
    let at = rng.pick(near) + rng.range(0, 6) as i64 - 3;
    let code = rng.pick(&[I, I, D, D, D, N, P]);
    Gap { at, operation: (rng.range(1, 4) as u32, code) }
}

/// The stretch from first to last reference base, with those of the gaps that fall into it.
pub fn stretch(first: i64, last: i64, gaps: &[Gap]) -> Alignment {
    let mut sorted = gaps.to_vec();
    sorted.sort_by_key(|gap| gap.at);
    let mut operations = Vec::new();
    let mut at = first;
    for gap in sorted {
        if gap.at + 1 < at || gap.at >= last {
            continue;
        }
        push(&mut operations, gap.at + 1 - at, M);
        at = gap.at + 1;
        operations.push(gap.operation);
        if takes_reference(gap.operation.1) {
            at += i64::from(gap.operation.0);
        }
    }
    push(&mut operations, last + 1 - at, M);
    Alignment { position: first, operations }
}

fn push(operations: &mut Vec<Operation>, length: i64, code: u8) {
    if length > 0 {
        operations.push((length as u32, code));
    }
}

impl Alignment {
    pub fn read_bases(&self) -> u64 {
        self.operations.iter().filter(|o| takes_read(o.1)).map(|o| u64::from(o.0)).sum()
    }

    /// Takes bases away at the far end: the right one of a forward read, the left one of a reverse.
    pub fn cut(&mut self, mut amount: u32, reverse: bool) {
        while amount > 0 && !self.operations.is_empty() {
            let end = if reverse { 0 } else { self.operations.len() - 1 };
            let (length, code) = self.operations[end];
            let taken = if takes_read(code) { amount.min(length) } else { length };
            if takes_read(code) {
                amount -= taken;
            }
            if reverse && takes_reference(code) {
                self.position += i64::from(taken);
            }
            self.operations[end].0 -= taken;
            if self.operations[end].0 == 0 {
                self.operations.remove(end);
            }
        }
    }

    /// Another way to write the same bases: clips at the ends, M split into =, X and M.
    pub fn rewrite(&mut self, rng: &mut Rng) {
        match rng.weighted(&[4, 3, 2, 1, 1]) {
            0 => self.soft_clip(rng),
            1 => self.split(rng),
            2 => self.hard_clip(rng),
            3 => self.operations.insert(rng.index(self.operations.len() + 1), (2, P)),
            _ => self.gap_at_end(rng),
        }
    }

    fn soft_clip(&mut self, rng: &mut Rng) {
        let left = rng.chance(50);
        let Some(place) = self.end(left) else { return };
        let (length, code) = self.operations[place];
        if code != M {
            return;
        }
        let clipped = rng.range(1, u64::from(length).min(4)) as u32;
        if left {
            self.position += i64::from(clipped);
        }
        let rest = (length - clipped, M);
        let pair = if left { [(clipped, S), rest] } else { [rest, (clipped, S)] };
        self.operations.splice(place..=place, pair.into_iter().filter(|o| o.0 > 0));
    }

    fn end(&self, left: bool) -> Option<usize> {
        let last = self.operations.len().checked_sub(1)?;
        Some(if left { 0 } else { last })
    }

    fn split(&mut self, rng: &mut Rng) {
        let Some(place) = self.operations.iter().position(|o| o.1 == M && o.0 > 1) else { return };
        let (length, _) = self.operations[place];
        let first = rng.range(1, u64::from(length) - 1) as u32;
        let codes = [rng.pick(&[0u8, 7, 8]), rng.pick(&[0u8, 7, 8])];
        self.operations.splice(place..=place, [(first, codes[0]), (length - first, codes[1])]);
    }

    fn hard_clip(&mut self, rng: &mut Rng) {
        let place = if rng.chance(50) { 0 } else { self.operations.len() };
        let length = rng.pick(&[1, 2, 3, 5, 100, LONGEST_OPERATION]);
        self.operations.insert(place, (length, H));
    }

    /// A D or N before the first or behind the last base.
    fn gap_at_end(&mut self, rng: &mut Rng) {
        let place = if rng.chance(60) { 0 } else { self.operations.len() };
        let length = rng.range(1, 3) as u32;
        if place == 0 {
            self.position -= i64::from(length);
        }
        self.operations.insert(place, (length, rng.pick(&[D, N])));
    }

    /// Hard clips that join to more than 32 bits.
    pub fn hard_clip_heavily(&mut self, rng: &mut Rng) {
        let room = 60usize.saturating_sub(self.operations.len());
        let clips = rng.range(0, 20).min(room as u64) as usize;
        let place = if rng.chance(50) { 0 } else { self.operations.len() };
        self.operations.splice(place..place, vec![(LONGEST_OPERATION, H); clips]);
    }

    /// A read of few bases, some of them aligned or none.
    pub fn tiny(rng: &mut Rng, position: i64) -> Self {
        let bases = rng.range(0, 3) as u32;
        let aligned = rng.range(0, u64::from(bases)) as u32;
        let clip = rng.pick(&[S, S, I]);
        let mut operations = vec![(bases - aligned, clip), (aligned, M)];
        operations.retain(|o| o.0 > 0);
        rng.shuffle(&mut operations);
        Self { position, operations }
    }
}
