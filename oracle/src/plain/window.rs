//! Steps 6 and 7: the longest of each side, the window, phase and length.

use super::Reader;
use super::cigar::reference_bases;
use super::wrong::Wrong;
use crate::model::Family;

/// What selection hands on to step 8.
pub struct Chosen {
    pub sides: [Vec<usize>; 2],
    pub window: (i64, i64),
    pub length: i64,
    pub r1_is_negative: bool,
    /// Flag 16 of each side's longest.
    pub reverse: [bool; 2],
}

/// The longest of a side.
struct Longest<'a> {
    words: &'a [u32],
    start: i64,
    end: i64,
    clipped_length: i64,
    reverse: bool,
}

impl Reader {
    pub(super) fn choose(&self, family: &Family, sides: [Vec<usize>; 2]) -> Result<Chosen, u8> {
        let longest = sides.each_ref().map(|side| self.longest(family, side));
        let r1_is_negative = match self.misreads(Wrong::NegativeByR2) {
            true => !longest[1].reverse,
            false => longest[0].reverse,
        };
        let [r1, r2] = &longest;
        let (positive, negative) = if r1_is_negative { (r2, r1) } else { (r1, r2) };
        let inner = (r1.start.max(r2.start), r1.end.min(r2.end));
        let legacy = family.options.legacy;
        let window = if legacy { (negative.start, positive.end) } else { inner };
        let minimum = family.options.min_duplex_length as i64;
        let judged = if self.misreads(Wrong::OverlapByTrueWindow) { inner } else { window };
        if !self.long_enough(judged, minimum) {
            return Err(6);
        }
        let in_phase = self.in_phase(&longest, window);
        let length = self.length(positive, negative, window).filter(|_| in_phase);
        let Some(length) = length else {
            let minimum_met =
                self.long_enough(inner, minimum) || self.misreads(Wrong::DovetailNoMinimum);
            let phase = self.in_phase(&longest, inner) || self.misreads(Wrong::DovetailNoPhase);
            let has_length = self.length(positive, negative, inner).is_some()
                || self.misreads(Wrong::DovetailNoLength);
            let dovetail = legacy && minimum_met && phase && has_length;
            return Err(if dovetail { 8 } else { 7 });
        };
        let reverse = match self.misreads(Wrong::PaddingByFirst) {
            true => sides.each_ref().map(|side| family.records[side[0]].flags & 16 != 0),
            false => longest.each_ref().map(|side| side.reverse),
        };
        Ok(Chosen { window, length, r1_is_negative, reverse, sides })
    }

    fn longest<'a>(&self, family: &'a Family, side: &[usize]) -> Longest<'a> {
        let words = |record: usize| family.operations(&family.records[record]).unwrap_or(&[]);
        let measure = |record: usize| match self.0 {
            Some(Wrong::LongestByClipped) => u64::from(family.records[record].clipped_length),
            Some(Wrong::LongestCountsOne) => reference_bases(words(record)).max(1),
            _ => reference_bases(words(record)),
        };
        let mut best = side[0];
        for &record in side {
            let ties = self.misreads(Wrong::LongestLast) && measure(record) == measure(best);
            if measure(record) > measure(best) || ties {
                best = record;
            }
        }
        let record = &family.records[best];
        let start = i64::from(record.position);
        let spanned = reference_bases(words(best)) as i64;
        let end = match self.0 {
            Some(Wrong::EndOffByOne) => start + spanned,
            Some(Wrong::EmptySpanZero) => start + spanned - 1,
            _ => start + spanned.max(1) - 1,
        };
        let clipped_length = i64::from(record.clipped_length);
        let reverse = record.flags & 16 != 0;
        Longest { words: words(best), start, end, clipped_length, reverse }
    }

    fn long_enough(&self, window: (i64, i64), minimum: i64) -> bool {
        let length = window.1 - window.0 + 1;
        match self.0 {
            Some(Wrong::OverlapAtMinimum) => length > minimum,
            Some(Wrong::UnsignedWindow) => length as u64 >= minimum as u64,
            _ => length >= minimum,
        }
    }

    fn in_phase(&self, longest: &[Longest<'_>; 2], window: (i64, i64)) -> bool {
        let last_base = !self.misreads(Wrong::PhaseNoLastBase);
        let position =
            |side: &Longest<'_>, at| self.read_position(side.words, side.start, at, last_base);
        let [r1, r2] = longest;
        let ends = [window.0, window.1].map(|at| [position(r1, at), position(r2, at)]);
        if self.misreads(Wrong::NoneOutOfPhase) && ends.iter().flatten().any(Option::is_none) {
            return false;
        }
        let [first, last] = ends.map(|[a, b]| a.unwrap_or(0) - b.unwrap_or(0));
        first == last
    }

    fn length(
        &self,
        positive: &Longest<'_>,
        negative: &Longest<'_>,
        window: (i64, i64),
    ) -> Option<i64> {
        let last_base = self.misreads(Wrong::LengthLastBase);
        let at = if self.misreads(Wrong::LengthAtStart) { window.0 } else { window.1 };
        let p = self.read_position(positive.words, positive.start, at, last_base)?;
        let n = self.read_position(negative.words, negative.start, at, last_base)?;
        Some(p + negative.clipped_length - n)
    }
}
