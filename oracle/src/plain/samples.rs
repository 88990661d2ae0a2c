//! Request 01: a ledger for each sample beside the run's, and the sheet of all of them.

use super::Reader;
use super::wrong::Wrong;
use crate::model::{Books, Ledger, Refusal, SAMPLES};

const NAMES: &str = "SAMPLE FAMILIES RECORDS FILTERED CALLED BASES DUPLEX DIFFER PPM";
const SHEET_ROOM: usize = 16_384;

impl Reader {
    pub(super) fn refusal_of_sample(&self, sample: u32) -> Option<Refusal> {
        let high =
            sample >= SAMPLES || sample == SAMPLES - 1 && self.misreads(Wrong::SampleAtLimit);
        high.then_some(Refusal(20, 0))
    }

    /// 10 of the run, 10 of the sample, 11 of the run, 11 of the sample.
    pub(super) fn refusal_of_books(&self, sample: u32, books: &Books) -> Option<Refusal> {
        let of = |ledger: &Ledger| self.refusal_of_ledger(ledger);
        let own = &books.samples[sample as usize];
        let (run, own) = (of(&books.run), of(own));
        match self.0 {
            Some(Wrong::SampleUnread) => run,
            Some(Wrong::LedgerByLedger) => run.or(own),
            Some(Wrong::AllSamplesRead) => {
                let all = books.samples.iter().filter_map(of).chain(run);
                all.min_by_key(|refusal| refusal.0)
            }
            _ => run.into_iter().chain(own).min_by_key(|refusal| refusal.0),
        }
    }

    /// A call counts the same for the run and for its sample.
    pub(super) fn books_after(&self, books: &Books, sample: u32, counts: &Ledger) -> Books {
        let mut after = books.clone();
        add(&mut after.run, counts);
        let sample = if self.misreads(Wrong::SampleZero) { 0 } else { sample };
        if !self.misreads(Wrong::RunOnly) {
            add(&mut after.samples[sample as usize], counts);
        }
        after
    }

    /// The sheet's text, where a buffer of so many bytes is lent.
    pub fn sheet(&self, samples: &[Ledger], room: usize) -> Result<String, Refusal> {
        let rates: Result<Vec<_>, Refusal> = samples.iter().map(|own| self.rates(own)).collect();
        let rates = rates?;
        if room < SHEET_ROOM {
            return Err(Refusal(21, 0));
        }
        let mut text = format!("{NAMES}\n");
        for (sample, (Ledger(own), rates)) in samples.iter().zip(rates).enumerate() {
            let [families, records] = [own[Ledger::FAMILIES], own[Ledger::RECORDS]];
            let [called, bases] = [own[Ledger::DUPLEXES], own[Ledger::BASES]];
            let [duplex, differ] = [own[Ledger::DUPLEX_BASES], own[Ledger::DISAGREEMENTS]];
            let (filtered, ppm) = (rates.filtered, rates.millionths);
            if families > 0 {
                text += &format!(
                    "{sample} {families} {records} {filtered} {called} {bases} {duplex} {differ} {ppm}\n"
                );
            }
        }
        Ok(text)
    }
}

/// Only a wrong reading adds to a ledger that is overfull.
fn add(ledger: &mut Ledger, counts: &Ledger) {
    ledger.0.iter_mut().zip(counts.0).for_each(|(count, more)| *count = count.wrapping_add(more));
}
