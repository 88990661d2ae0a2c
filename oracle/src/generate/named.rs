//! The same calls with samples named, and their ledgers set.

use super::rng::Rng;
use super::{Calls, faults};
use crate::model::{Call, Ledger, SAMPLES};

/// So many calls at first name no sample, and are for sample 0.
const UNNAMED: usize = 200;

pub struct Named {
    calls: Calls,
    rng: Rng,
    given: usize,
    sample: u32,
    /// Samples whose ledgers are extreme.
    spoiled: Vec<u32>,
}

impl Named {
    pub fn new(seed: u64) -> Self {
        let rng = Rng::new(!seed);
        Self { calls: Calls::new(seed), rng, given: 0, sample: 0, spoiled: Vec::new() }
    }

    /// Mostly one of the run, the first and the last more often; where 1 is refused often one above.
    fn number(&mut self, refused: bool) -> u32 {
        let rng = &mut self.rng;
        if rng.chance(if refused { 40 } else { 3 }) {
            return rng.pick(&[SAMPLES, SAMPLES, SAMPLES + 1, 128, 1 << 31, u32::MAX]);
        }
        let any = rng.index(SAMPLES as usize) as u32;
        rng.pick(&[0, 1, 3, SAMPLES - 2, SAMPLES - 1, SAMPLES - 1, any, any, any])
    }

    fn spoil(&mut self, call: &mut Call, sample: u32) {
        if sample < SAMPLES {
            call.sample_ledgers.push((sample, faults::ledger(&mut self.rng)));
            self.spoiled.push(sample);
        }
    }
}

impl Iterator for Named {
    type Item = Call;

    fn next(&mut self) -> Option<Call> {
        let mut call = self.calls.next()?;
        self.given += 1;
        if self.given <= UNNAMED {
            return Some(call);
        }
        if self.sample >= SAMPLES || self.rng.chance(60) {
            let refused = call.family.options.min_duplex_length > 2_147_483_647;
            self.sample = self.number(refused);
            call.sample = Some(self.sample);
        }
        if self.spoiled.len() > 2 {
            let freshened = self.spoiled.drain(..).map(|sample| (sample, Ledger::default()));
            call.sample_ledgers = freshened.collect();
        }
        if self.rng.chance(if call.ledger.is_some() { 30 } else { 1 }) {
            self.spoil(&mut call, self.sample);
        }
        if self.rng.chance(4) {
            let other = self.rng.index(SAMPLES as usize) as u32;
            self.spoil(&mut call, other);
        }
        Some(call)
    }
}
