//! The table of refusals, 1 to 11, and 20 before them.

use super::Reader;
use super::cigar::{entry, read_bases, reference_bases};
use super::wrong::Wrong;
use crate::model::{Books, Family, Ledger, Record, Refusal, Strand};

const FAMILIES: u64 = 268_435_456;
const COUNTS: u64 = 2_199_023_255_552;
const PLACE: u64 = 536_870_911;

impl Reader {
    pub(super) fn refusal(&self, family: &Family, sample: u32, books: &Books) -> Option<Refusal> {
        let of_sample = self.refusal_of_sample(sample);
        if of_sample.is_some() && !self.misreads(Wrong::SampleAfterOne) {
            return of_sample;
        }
        let of_selection = self.refusal_of_selection(family);
        if of_selection.is_some_and(|refusal| of_sample.is_none() || refusal.0 == 1) {
            return of_selection;
        }
        if of_sample.is_some() {
            return of_sample;
        }
        if let Some(refusal) = self.refusal_of_strands(family) {
            return Some(refusal);
        }
        if !self.misreads(Wrong::RoomIfCalled)
            && let Err(refusal) = self.room(family, true)
        {
            return Some(refusal);
        }
        self.refusal_of_books(sample, books)
    }

    pub(super) fn refusal_of_selection(&self, family: &Family) -> Option<Refusal> {
        let minimum = family.options.min_duplex_length;
        if minimum > 2_147_483_647
            || minimum == 2_147_483_647 && self.misreads(Wrong::MinimumAtLimit)
        {
            return Some(Refusal(1, 0));
        }
        if family.records.len() > 512 || family.words.len() > 8_192 {
            return Some(Refusal(2, 0));
        }
        let sides = self.pairs(family, &mut vec![None; family.records.len()]);
        let too_few = (sides[0].len() as u64) < family.options.min_reads;
        if too_few && self.misreads(Wrong::RefusalIfEnough) {
            return None;
        }
        let entered = |record: &usize| sides.iter().any(|side| side.contains(record));
        let all = self.misreads(Wrong::RefusalOfAll);
        let records = (0..family.records.len()).filter(|record| all || entered(record));
        let found = records.filter_map(|record| {
            let number = self.fault(family, &family.records[record])?;
            Some((number, record as u64))
        });
        let first = match self.misreads(Wrong::RefusalByRecord) {
            true => found.min_by_key(|(_, record)| *record),
            false => found.min(),
        };
        first.map(|(number, record)| Refusal(number, record))
    }

    /// The lowest of 3 to 6 that a record gives.
    fn fault(&self, family: &Family, record: &Record) -> Option<u8> {
        let Some(words) = self.part(family, record) else { return Some(3) };
        if words.iter().any(|&word| entry(word).1 > 8 || entry(word).0 == 0) {
            return Some(4);
        }
        if record.clipped_length > 1_024 || read_bases(words) != u64::from(record.clipped_length) {
            return Some(5);
        }
        let limit = if self.misreads(Wrong::PositionAtLimit) { PLACE - 1 } else { PLACE };
        let placed = (1..=limit).contains(&u64::from(record.position));
        (!placed || reference_bases(words) > PLACE).then_some(6)
    }

    fn part<'a>(&self, family: &'a Family, record: &Record) -> Option<&'a [u32]> {
        let limit = if self.misreads(Wrong::SixtyFourRefused) { 63 } else { 64 };
        if record.count > limit || record.count == 0 && self.misreads(Wrong::EmptyPartRefused) {
            return None;
        }
        if record.count == 0 && self.misreads(Wrong::EmptyPartAnywhere) {
            return Some(&[]);
        }
        let end = record.start.wrapping_add(record.count) as usize;
        if self.misreads(Wrong::PartIn32Bits) && end <= family.words.len() {
            return Some(family.words.get(record.start as usize..end).unwrap_or(&[]));
        }
        family.words.get(record.start as usize..record.start as usize + record.count as usize)
    }

    fn refusal_of_strands(&self, family: &Family) -> Option<Refusal> {
        if self.misreads(Wrong::StrandIfReached)
            && !matches!(self.selection(family), Ok(crate::model::Selection::Kept { .. }))
        {
            return None;
        }
        let strands = || family.strands.iter().enumerate();
        let faults =
            strands().filter_map(|(side, strand)| Some((fault_of(strand.as_ref()?)?, side as u64)));
        let first = match self.misreads(Wrong::StrandByStrand) {
            true => faults.min_by_key(|(_, side)| *side),
            false => faults.min(),
        };
        first.map(|(number, side)| Refusal(number, side))
    }

    pub(super) fn room(&self, family: &Family, called: bool) -> Result<(), Refusal> {
        let [columns, list, marks] = family.room;
        let small = columns < 2_048 || list < 512 || marks < 8;
        if small && called { Err(Refusal(9, 0)) } else { Ok(()) }
    }

    pub(super) fn refusal_of_ledger(&self, ledger: &Ledger) -> Option<Refusal> {
        let families = ledger.0[Ledger::FAMILIES];
        let reached = self.misreads(Wrong::CounterAtLimit);
        let high = ledger.0[1..].iter().any(|&n| n > COUNTS || n == COUNTS && reached);
        let full = families == FAMILIES;
        if self.misreads(Wrong::ElevenFirst) && full {
            return Some(Refusal(11, 0));
        }
        if high || families > FAMILIES || full && self.misreads(Wrong::FullIsTen) {
            return Some(Refusal(10, 0));
        }
        full.then_some(Refusal(11, 0))
    }
}

fn fault_of(strand: &Strand) -> Option<u8> {
    let lengths = strand.lengths();
    if lengths.iter().any(|&length| length != lengths[0] || length > 1_024) {
        return Some(7);
    }
    let known = |base: &u8| matches!(base, b'A' | b'C' | b'G' | b'T' | b'N' | b'n');
    (!strand.bases.iter().all(known)).then_some(8)
}
