//! One original caller for the run and one for each sample: the ledgers are their counters.

use crate::driver::{REASONS, Told, number, told};
use crate::model::{Books, Ending, Family, Ledger};
use original::codec_caller::{CodecConsensusStats, LastingCaller, Seen};
use std::collections::BTreeMap;

/// Each is made when it is first asked, with its counters at the ledger's figures.
#[derive(Default)]
pub struct Callers {
    run: Option<Caller>,
    samples: BTreeMap<u32, Caller>,
}

struct Caller {
    original: LastingCaller,
    /// Families, and the fates without a counter: passed over, no strand, used.
    uncounted: [u64; 4],
    ledger: Ledger,
}

impl Callers {
    /// The answer of the run's caller, that of the sample's, and the ledgers after both.
    pub fn call(&mut self, family: &Family, sample: u32, books: &Books) -> (Told, Told, Books) {
        let mut after = books.clone();
        let own = &mut after.samples[sample as usize];
        let run = self.run.take_if(|caller| caller.ledger == books.run);
        let run = self.run.insert(run.unwrap_or_else(|| Caller::new(&books.run)));
        let kept = self.samples.remove(&sample).filter(|caller| caller.ledger == *own);
        let mut of_sample = kept.unwrap_or_else(|| Caller::new(own));
        let told = run.call(family);
        let again = of_sample.call(family);
        (after.run, *own) = (run.ledger, of_sample.ledger);
        self.samples.insert(sample, of_sample);
        (told, again, after)
    }
}

impl Caller {
    fn new(ledger: &Ledger) -> Self {
        let Ledger(counts) = ledger;
        let reason = |reason| counts[Ledger::REASONS + usize::from(number(reason))];
        let stats = CodecConsensusStats {
            total_input_reads: counts[Ledger::RECORDS],
            consensus_reads_generated: counts[Ledger::DUPLEXES],
            reads_filtered: REASONS.into_iter().map(reason).sum(),
            consensus_reads_rejected_hdd: counts[Ledger::REJECTED_FAMILIES],
            consensus_bases_emitted: counts[Ledger::BASES],
            consensus_duplex_bases_emitted: counts[Ledger::DUPLEX_BASES],
            duplex_disagreement_base_count: counts[Ledger::DISAGREEMENTS],
            rejection_reasons: REASONS.map(|r| (r, reason(r) as usize)).into(),
        };
        let places = [Ledger::FAMILIES, Ledger::PASSED_OVER, Ledger::NO_STRAND, Ledger::USED];
        let uncounted = places.map(|place| counts[place]);
        Self { original: LastingCaller::new(stats), uncounted, ledger: *ledger }
    }

    fn call(&mut self, family: &Family) -> Told {
        let (told, seen) = told(&mut self.original, family);
        let through = match (&told.ending, &seen.trace.selected) {
            (Ending::Called(_) | Ending::NoStrand, Some(selected)) => {
                selected.kept.iter().map(Vec::len).sum()
            }
            _ => 0,
        };
        let passed_over = family.records.len() - told.list.len() - through;
        let [families, passed, no_strand, used] = &mut self.uncounted;
        *families += 1;
        *passed += passed_over as u64;
        *if told.ending == Ending::NoStrand { no_strand } else { used } += through as u64;
        let before = std::mem::replace(&mut self.ledger, counters(&seen, self.uncounted));
        check(&before, &self.ledger, &seen, &told.list);
        told
    }
}

/// Counters of the original where it has them.
fn counters(seen: &Seen, [families, passed_over, no_strand, used]: [u64; 4]) -> Ledger {
    let stats = &seen.stats;
    let mut ledger = Ledger::default();
    let mut put = |place: usize, figure: u64| ledger.0[place] = figure;
    put(Ledger::FAMILIES, families);
    put(Ledger::RECORDS, stats.total_input_reads);
    for reason in REASONS {
        let figure = stats.rejection_reasons.get(&reason).copied().unwrap_or(0);
        put(Ledger::REASONS + usize::from(number(reason)), figure as u64);
    }
    put(Ledger::PASSED_OVER, passed_over);
    put(Ledger::NO_STRAND, no_strand);
    put(Ledger::USED, used);
    put(Ledger::REJECTED_FAMILIES, stats.consensus_reads_rejected_hdd);
    put(Ledger::DUPLEXES, stats.consensus_reads_generated);
    put(Ledger::BASES, stats.consensus_bases_emitted);
    put(Ledger::DUPLEX_BASES, stats.consensus_duplex_bases_emitted);
    put(Ledger::DISAGREEMENTS, stats.duplex_disagreement_base_count);
    ledger
}

/// The trace lines must tell the same story as the original's own counters.
fn check(before: &Ledger, after: &Ledger, seen: &Seen, list: &[(usize, u8)]) {
    for reason in REASONS {
        let place = Ledger::REASONS + usize::from(number(reason));
        let listed = list.iter().filter(|(_, r)| *r == number(reason)).count() as u64;
        assert_eq!(listed, after.0[place] - before.0[place], "{reason:?}");
    }
    let reasons = &after.0[Ledger::REASONS + 1..=Ledger::REASONS + REASONS.len()];
    assert_eq!(seen.stats.reads_filtered, reasons.iter().sum());
}
