//! What a call adds to the ledger.

use super::wrong::Wrong;
use super::{Course, Fate, Fates, Reader};
use crate::model::{Ending, Ledger, Refusal};

/// What follows from a ledger: the sum of the reasons, the rate, and the rate in millionths.
#[derive(Debug, Clone, Copy, PartialEq)]
pub struct Rates {
    pub filtered: u64,
    pub rate: f64,
    pub millionths: u64,
}

impl Reader {
    /// Without duplex bases both rates are 0; refusal 10 is the only one.
    pub fn rates(&self, ledger: &Ledger) -> Result<Rates, Refusal> {
        let refusal = self.refusal_of_ledger(ledger).filter(|refusal| refusal.0 == 10);
        if let Some(refusal) = refusal {
            return Err(refusal);
        }
        let filtered = ledger.0[Ledger::REASONS + 1..=Ledger::REASONS + 10].iter().sum();
        let [both, unequal] = [ledger.0[Ledger::DUPLEX_BASES], ledger.0[Ledger::DISAGREEMENTS]];
        if both == 0 {
            return Ok(Rates { filtered, rate: 0.0, millionths: 0 });
        }
        let millionths = u128::from(unequal) * 1_000_000 / u128::from(both);
        let millionths = millionths.try_into().expect("at most 2^41 millions");
        Ok(Rates { filtered, rate: unequal as f64 / both as f64, millionths })
    }

    /// The twenty counts of one call.
    pub(super) fn counts(
        &self,
        fates: &Fates,
        ending: &Ending,
        course: &Course,
        tally: [u64; 2],
    ) -> Ledger {
        let mut added = Ledger::default();
        let counts = &mut added.0;
        if *ending == Ending::Empty && self.misreads(Wrong::EmptyUncounted) {
            return added;
        }
        counts[Ledger::FAMILIES] += 1;
        counts[Ledger::RECORDS] += fates.len() as u64;
        for fate in fates.iter().flatten() {
            counts[self.place(*fate)] += 1;
        }
        let called = match ending {
            Ending::Called(columns) => Some(&columns[0]),
            _ => None,
        };
        if let (Some(duplex), Course::Chosen(chosen)) = (called, course) {
            counts[Ledger::DUPLEXES] += 1;
            counts[Ledger::BASES] += match self.misreads(Wrong::BasesOfWindow) {
                true => (chosen.window.1 - chosen.window.0 + 1) as u64,
                false => duplex.bases.len() as u64,
            };
        }
        if called.is_some() || self.misreads(Wrong::RejectedTallied) {
            let hidden = called.filter(|_| self.misreads(Wrong::DuplexBasesCalled));
            let hidden =
                hidden.map_or(0, |d| d.bases.iter().filter(|b| **b == b'N').count() as u64);
            counts[Ledger::DUPLEX_BASES] += tally[0].saturating_sub(hidden);
            counts[Ledger::DISAGREEMENTS] += tally[1];
        }
        if *ending == Ending::Rejected(10) {
            let records = fates.iter().filter(|fate| **fate == Some(Fate::Reason(10))).count();
            let by_records = self.misreads(Wrong::RejectedByRecords);
            counts[Ledger::REJECTED_FAMILIES] += if by_records { records as u64 } else { 1 };
        }
        added
    }

    fn place(&self, fate: Fate) -> usize {
        match fate {
            Fate::Reason(reason) => Ledger::REASONS + usize::from(reason),
            Fate::PassedOver => Ledger::PASSED_OVER,
            Fate::NoStrand if self.misreads(Wrong::NoStrandUsed) => Ledger::USED,
            Fate::NoStrand => Ledger::NO_STRAND,
            Fate::Used => Ledger::USED,
        }
    }
}
