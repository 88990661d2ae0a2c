//! One position of two strands, the two tallies, and the limits.

use super::Reader;
use super::wrong::Wrong;
use crate::model::{Options, Strand};

/// Base, quality, depth, error.
type Place = (u8, u8, u16, u16);

const CEILING: u16 = 32_767;

fn has_data(base: u8) -> bool {
    !matches!(base, b'N' | b'n')
}

pub fn place(strand: &Strand, at: usize) -> Place {
    (strand.bases[at], strand.quals[at], strand.depths[at], strand.errors[at])
}

pub fn lacks_data(strand: &Strand, at: usize) -> bool {
    !has_data(strand.bases[at])
}

/// Which limit rejected, with the figure of the Rust's error.
#[derive(Debug, Clone, Copy, PartialEq)]
pub enum Limit {
    Count(u64),
    Rate(f64),
}

/// Positions both strands call, and those of them that differ.
pub fn tallies(first: &Strand, second: &Strand) -> [u64; 2] {
    let pairs = first.bases.iter().zip(&second.bases);
    let both: Vec<_> = pairs.filter(|(a, b)| has_data(**a) && has_data(**b)).collect();
    [both.len() as u64, both.iter().filter(|(a, b)| a != b).count() as u64]
}

impl Reader {
    pub fn limits(&self, options: &Options, tally: [u64; 2], positions: usize) -> Option<Limit> {
        let [both, unequal] = tally;
        if both == 0 && !self.misreads(Wrong::LimitsAlways) {
            return None;
        }
        let at_count = self.misreads(Wrong::CountAtLimit) && unequal == options.max_disagreements;
        if unequal > options.max_disagreements || at_count {
            return Some(Limit::Count(unequal));
        }
        let divisor =
            if self.misreads(Wrong::RateOverLength) { positions as u64 } else { both.max(1) };
        let rate = match self.misreads(Wrong::RateIn32Bits) {
            true => f64::from(unequal as f32 / divisor as f32),
            false => unequal as f64 / divisor as f64,
        };
        let limit = options.max_rate;
        let rejects = rate > limit
            || rate == limit && self.misreads(Wrong::RateAtLimit)
            || limit.is_nan() && self.misreads(Wrong::NanRejects);
        rejects.then_some(Limit::Rate(rate))
    }

    pub fn combined(&self, first: &Strand, second: &Strand) -> Strand {
        let mut duplex = Strand::default();
        for at in 0..first.bases.len() {
            let (base, quality, depth, error) = self.combine(place(first, at), place(second, at));
            duplex.bases.push(base);
            duplex.quals.push(quality);
            duplex.depths.push(depth);
            duplex.errors.push(error);
        }
        duplex
    }

    fn combine(&self, a: Place, b: Place) -> Place {
        let (base, quality, depth, error) = match (has_data(a.0), has_data(b.0)) {
            (true, true) => self.both(a, b),
            (true, false) => self.lone(a),
            (false, true) => self.lone(b),
            (false, false) => self.none(a, b),
        };
        let upper = (a.0 == b'N' || b.0 == b'N') && !self.misreads(Wrong::UpperForcesNot);
        let lower = (a.0 == b'n' || b.0 == b'n') && self.misreads(Wrong::LowerForces);
        match upper || lower {
            true if self.misreads(Wrong::ForcedClears) => (b'N', 2, 0, 0),
            true => (b'N', 2, depth, error),
            false => (base, quality, depth, error),
        }
    }

    fn both(&self, a: Place, b: Place) -> Place {
        let (base, quality, error) = if a.0 == b.0 { self.equal(a, b) } else { self.unequal(a, b) };
        let kept_sum = a.0 == b.0 && self.misreads(Wrong::SumTwoKeepsBase);
        let base = if self.makes_n(quality) && !kept_sum { b'N' } else { base };
        (base, quality, self.depth_sum(a.2, b.2), self.clamped(error))
    }

    fn equal(&self, a: Place, b: Place) -> (u8, u8, i64) {
        let ceiling = if self.misreads(Wrong::SumUncapped) { 255 } else { 93 };
        let quality = (u16::from(a.1) + u16::from(b.1)).min(ceiling) as u8;
        (a.0, quality, i64::from(a.3) + i64::from(b.3))
    }

    fn unequal(&self, a: Place, b: Place) -> (u8, u8, i64) {
        let second_wins = b.1 > a.1 || b.1 == a.1 && self.misreads(Wrong::TieToSecond);
        let (winner, loser) = if second_wins { (b, a) } else { (a, b) };
        let floor = if self.misreads(Wrong::NoFloorOfTwo) { 0 } else { 2 };
        let quality = (winner.1 - loser.1).max(floor);
        let depth = match self.misreads(Wrong::LoserDepthCapped) {
            true => loser.2.min(CEILING),
            false => loser.2,
        };
        let difference = i64::from(depth) - i64::from(loser.3);
        let error = match self.misreads(Wrong::WholeNotBelowZero) {
            true => (i64::from(winner.3) + difference).max(0),
            false => i64::from(winner.3) + difference.max(0),
        };
        (winner.0, quality, error)
    }

    fn makes_n(&self, quality: u8) -> bool {
        quality == 2 || quality < 2 && self.misreads(Wrong::LowMakesN)
    }

    fn depth_sum(&self, a: u16, b: u16) -> u16 {
        match self.misreads(Wrong::DepthSumRaw) {
            true => a.saturating_add(b),
            false => a.min(CEILING) + b.min(CEILING),
        }
    }

    fn clamped(&self, error: i64) -> u16 {
        let ceiling = if self.misreads(Wrong::ErrorRaw) { u16::MAX } else { CEILING };
        error.clamp(0, i64::from(ceiling)) as u16
    }

    fn lone(&self, (base, quality, depth, error): Place) -> Place {
        let keeps = self.misreads(Wrong::LoneTwoKeepsBase);
        let base = if self.makes_n(quality) && !keeps { b'N' } else { base };
        let depth = if self.misreads(Wrong::LoneDepthCapped) { depth.min(CEILING) } else { depth };
        let error = if self.misreads(Wrong::LoneErrorClamped) { error.min(CEILING) } else { error };
        (base, quality, depth, error)
    }

    fn none(&self, a: Place, b: Place) -> Place {
        let depth = if self.misreads(Wrong::NoneDepthSum) { self.depth_sum(a.2, b.2) } else { 0 };
        let sum = i64::from(a.3) + i64::from(b.3);
        let raw = sum.min(i64::from(u16::MAX)) as u16;
        let error = if self.misreads(Wrong::NoneErrorRaw) { raw } else { self.clamped(sum) };
        (b'N', 2, depth, error)
    }
}
