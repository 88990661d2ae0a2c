//! Step 9: orientation, padding, the duplex, masks.

use super::Reader;
use super::position::{lacks_data, tallies};
use super::window::Chosen;
use super::wrong::Wrong;
use crate::model::{Ending, Family, Options, Strand};

impl Reader {
    pub(super) fn duplex(
        &self,
        family: &Family,
        chosen: &Chosen,
        strands: [Strand; 2],
    ) -> (Ending, [u64; 2]) {
        let is_turned = |side: usize| match self.misreads(Wrong::TurnedByOwnSide) {
            true => chosen.reverse[side],
            false => chosen.r1_is_negative == (side == 0),
        };
        let [r1, r2] =
            [0, 1].map(|side| self.laid_out(chosen, side, &strands[side], is_turned(side)));
        let tally = tallies(&r1, &r2);
        if self.limits(&family.options, tally, r1.bases.len()).is_some() {
            return (Ending::Rejected(10), tally);
        }
        let mut duplex = match self.misreads(Wrong::PositiveFirst) && chosen.r1_is_negative {
            true => self.combined(&r2, &r1),
            false => self.combined(&r1, &r2),
        };
        self.mask(&mut duplex, [&r1, &r2], &family.options);
        let columns = match chosen.r1_is_negative {
            true if self.misreads(Wrong::StrandsNotTurnedBack) => [self.turn(&duplex), r1, r2],
            true if self.misreads(Wrong::DuplexNotTurnedBack) => {
                [duplex, self.turn(&r1), self.turn(&r2)]
            }
            true => [self.turn(&duplex), self.turn(&r1), self.turn(&r2)],
            false => [duplex, r1, r2],
        };
        (Ending::Called(Box::new(columns)), tally)
    }

    fn laid_out(&self, chosen: &Chosen, side: usize, strand: &Strand, turned: bool) -> Strand {
        let left = match self.0 {
            Some(Wrong::PaddingByR1) => chosen.r1_is_negative == (side == 0),
            Some(Wrong::PaddingRight) => !chosen.reverse[side],
            _ => chosen.reverse[side],
        };
        let base = if self.misreads(Wrong::PaddingUpper) { b'N' } else { b'n' };
        let quality = if self.misreads(Wrong::PaddingQuality) { 2 } else { 0 };
        let padded = |strand: &Strand| padded(strand, chosen.length as usize, left, base, quality);
        match (turned, self.misreads(Wrong::PadBeforeTurn)) {
            (false, _) => padded(strand),
            (true, false) => padded(&self.turn(strand)),
            (true, true) => self.turn(&padded(strand)),
        }
    }

    /// Reverse complement of all columns.
    fn turn(&self, strand: &Strand) -> Strand {
        let complement = |&base: &u8| match base {
            b'A' => b'T',
            b'C' => b'G',
            b'G' => b'C',
            b'T' => b'A',
            b'n' if self.misreads(Wrong::PaddingComplemented) => b'N',
            other => other,
        };
        let mut turned = strand.clone();
        turned.bases = strand.bases.iter().rev().map(complement).collect();
        if !self.misreads(Wrong::QualitiesNotTurned) {
            turned.quals.reverse();
        }
        if !self.misreads(Wrong::DepthsNotTurned) {
            turned.depths.reverse();
            turned.errors.reverse();
        }
        turned
    }

    fn mask(&self, duplex: &mut Strand, strands: [&Strand; 2], options: &Options) {
        if self.misreads(Wrong::SingleBeforeOuter) {
            self.mask_single(duplex, strands, options);
            self.mask_outer(duplex, options);
        } else {
            self.mask_outer(duplex, options);
            self.mask_single(duplex, strands, options);
        }
    }

    fn mask_outer(&self, duplex: &mut Strand, options: &Options) {
        let Some(quality) = options.outer_quality else { return };
        let length = duplex.bases.len();
        if options.outer_length > length as u64 && self.misreads(Wrong::OuterTooLong) {
            return;
        }
        for at in 0..length {
            let at_end = (length - 1 - at) as u64;
            let at_end = at_end < options.outer_length && !self.misreads(Wrong::OuterFirstOnly);
            if (at as u64) < options.outer_length || at_end {
                self.overwrite(duplex, at, quality);
            }
        }
    }

    fn mask_single(&self, duplex: &mut Strand, strands: [&Strand; 2], options: &Options) {
        let Some(quality) = options.single_strand_quality else { return };
        for at in 0..duplex.bases.len() {
            let lacking = strands.map(|strand| match self.misreads(Wrong::SinglePaddingOnly) {
                true => strand.bases[at] == b'n',
                false => lacks_data(strand, at),
            });
            let [one, both] = [lacking[0] || lacking[1], lacking[0] && lacking[1]];
            let masked = match self.0 {
                Some(Wrong::SingleNotBoth) => one && !both,
                Some(Wrong::SingleNeedsBoth) => both,
                Some(Wrong::SingleWhereN) => duplex.bases[at] == b'N',
                _ => one,
            };
            if masked {
                self.overwrite(duplex, at, quality);
            }
        }
    }

    fn overwrite(&self, duplex: &mut Strand, at: usize, quality: u8) {
        let old = duplex.quals[at];
        duplex.quals[at] =
            if self.misreads(Wrong::MasksOnlyLower) { old.min(quality) } else { quality };
        if quality == 2 && self.misreads(Wrong::MaskTwoMakesN) {
            duplex.bases[at] = b'N';
        }
    }
}

/// The base given (n), the quality given (0), 0, 0 on the left or on the right.
fn padded(strand: &Strand, length: usize, left: bool, base: u8, quality: u8) -> Strand {
    fn pad<T: Copy>(column: &[T], length: usize, left: bool, with: T) -> Vec<T> {
        let padding = vec![with; length.saturating_sub(column.len())];
        if left { [&padding, column].concat() } else { [column, &padding].concat() }
    }
    Strand {
        bases: pad(&strand.bases, length, left, base),
        quals: pad(&strand.quals, length, left, quality),
        depths: pad(&strand.depths, length, left, 0),
        errors: pad(&strand.errors, length, left, 0),
    }
}
