//! An answerer written from document 01 alone, beside the original; it can be told to misread.

mod cigar;
mod columns;
pub mod conversion;
mod group;
pub mod lanes;
pub mod ledger;
mod pairs;
pub mod position;
mod refusals;
mod samples;
mod window;
pub mod wrong;

use crate::model::{Answer, Books, Ending, Family, Refusal, Selection, Strand, marks_of};
use window::Chosen;
use wrong::Wrong;

/// The reader of document 01; `None` reads it right.
#[derive(Clone, Copy)]
pub struct Reader(pub Option<Wrong>);

#[derive(Debug, Clone, Copy, PartialEq)]
pub enum Fate {
    Reason(u8),
    PassedOver,
    NoStrand,
    Used,
}

pub type Fates = Vec<Option<Fate>>;

/// A record keeps its first fate.
fn give(fates: &mut Fates, record: usize, fate: Fate) {
    fates[record].get_or_insert(fate);
}

fn give_rest(fates: &mut Fates, fate: Fate) {
    fates.iter_mut().for_each(|slot| {
        slot.get_or_insert(fate);
    });
}

/// How steps 1 to 7 end.
enum Course {
    Empty,
    Ended(u8),
    Chosen(Chosen),
}

impl Reader {
    fn misreads(&self, wrong: Wrong) -> bool {
        self.0 == Some(wrong)
    }

    pub fn family_call(
        &self,
        family: &Family,
        sample: u32,
        books: &Books,
    ) -> Result<Answer, Refusal> {
        if let Some(refusal) = self.refusal(family, sample, books) {
            return Err(refusal);
        }
        let mut fates = vec![None; family.records.len()];
        let course = self.steps_1_to_7(family, &mut fates);
        let (ending, tally) = self.steps_8_and_9(family, &course);
        if self.misreads(Wrong::RoomIfCalled) {
            self.room(family, matches!(ending, Ending::Called(_)))?;
        }
        self.take_back(&mut fates, &ending);
        give_rest(
            &mut fates,
            match ending {
                Ending::Rejected(reason) => Fate::Reason(reason),
                Ending::NoStrand if self.misreads(Wrong::NoStrandListed) => Fate::Reason(3),
                Ending::NoStrand => Fate::NoStrand,
                Ending::Called(_) | Ending::Empty => Fate::Used,
            },
        );
        let books = self.books_after(books, sample, &self.counts(&fates, &ending, &course, tally));
        let (list, marks) = self.list_and_marks(&fates);
        Ok(Answer { ending, list, marks, books })
    }

    /// Fates that a wrong reading gives anew at the end.
    fn take_back(&self, fates: &mut Fates, ending: &Ending) {
        let rejected = matches!(ending, Ending::Rejected(_));
        let taken = |fate: &Fate| match self.0 {
            Some(Wrong::LastFate) => rejected,
            Some(Wrong::PassedOverEnds) => rejected && *fate == Fate::PassedOver,
            Some(Wrong::MinorityFate) => rejected && *fate == Fate::Reason(4),
            _ => false,
        };
        fates.iter_mut().for_each(|slot| *slot = slot.take().filter(|fate| !taken(fate)));
    }

    pub fn selection(&self, family: &Family) -> Result<Selection, Refusal> {
        if let Some(refusal) = self.refusal_of_selection(family) {
            return Err(refusal);
        }
        let mut fates = vec![None; family.records.len()];
        Ok(match self.steps_1_to_7(family, &mut fates) {
            Course::Empty => Selection::Empty,
            Course::Ended(reason) => Selection::Rejected(reason),
            Course::Chosen(chosen) => Selection::Kept {
                window: chosen.window,
                length: chosen.length as u64,
                r1_is_negative: chosen.r1_is_negative,
                kept: chosen.sides.map(marks_of),
            },
        })
    }

    /// What steps 1 to 7 choose, where they choose and refusals 1 to 6 let them.
    pub fn chosen(&self, family: &Family) -> Option<Chosen> {
        let mut fates = vec![None; family.records.len()];
        if self.refusal_of_selection(family).is_some() {
            return None;
        }
        match self.steps_1_to_7(family, &mut fates) {
            Course::Chosen(chosen) => Some(chosen),
            _ => None,
        }
    }

    fn steps_1_to_7(&self, family: &Family, fates: &mut Fates) -> Course {
        let sides = self.pairs(family, fates);
        if sides[0].is_empty() {
            return Course::Empty;
        }
        if (sides[0].len() as u64) < family.options.min_reads {
            return Course::Ended(3);
        }
        let Some(sides) = self.groups_and_cap(family, sides, fates) else {
            return Course::Ended(3);
        };
        match self.choose(family, sides) {
            Ok(chosen) => Course::Chosen(chosen),
            Err(reason) => Course::Ended(reason),
        }
    }

    /// The ending, with the both-called and the unequal positions where the two were combined.
    fn steps_8_and_9(&self, family: &Family, course: &Course) -> (Ending, [u64; 2]) {
        let chosen = match course {
            Course::Empty => return (Ending::Empty, [0, 0]),
            Course::Ended(reason) => return (Ending::Rejected(*reason), [0, 0]),
            Course::Chosen(chosen) => chosen,
        };
        let too_long = |strand: &Strand| {
            let length = strand.bases.len() as i64;
            length > chosen.length || self.misreads(Wrong::ClipAtEqual) && length == chosen.length
        };
        let held = if self.misreads(Wrong::ClipR1Only) { 1 } else { 2 };
        let clipped = family.strands[..held].iter().flatten().any(too_long);
        if clipped && self.misreads(Wrong::ClipBeforeAbsent) {
            return (Ending::Rejected(9), [0, 0]);
        }
        let strands = match &family.strands {
            [Some(r1), Some(r2)] => [r1.clone(), r2.clone()],
            [None, None] => return (Ending::NoStrand, [0, 0]),
            [r1, r2] if self.misreads(Wrong::AbsentBoth) => {
                [r1.clone().unwrap_or_default(), r2.clone().unwrap_or_default()]
            }
            _ => return (Ending::NoStrand, [0, 0]),
        };
        if clipped {
            return (Ending::Rejected(9), [0, 0]);
        }
        self.duplex(family, chosen, strands)
    }

    fn list_and_marks(&self, fates: &Fates) -> (Vec<(usize, u8)>, [u64; 8]) {
        let reasons = fates.iter().enumerate().filter_map(|(record, fate)| match fate {
            Some(Fate::Reason(reason)) => Some((record, *reason)),
            _ => None,
        });
        let all: Vec<(usize, u8)> = reasons.collect();
        let marked = all.iter().filter(|r| r.1 != 5 || self.misreads(Wrong::DownsampledMarked));
        let marks = marks_of(marked.map(|(record, _)| *record));
        let unlisted = self.misreads(Wrong::DownsampledUnlisted);
        (all.into_iter().filter(|r| r.1 != 5 || !unlisted).collect(), marks)
    }
}
