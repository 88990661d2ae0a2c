//! Seeded families: mostly callable, bent towards every ending, refusal, tie and trap.

mod alignment;
mod faults;
mod named;
mod options;
mod positions;
mod records;
pub mod rng;
mod strands;

use crate::model::{Call, Ledger};
use rng::Rng;

pub use named::Named;
pub use positions::columns;

/// Calls that share one ledger, as a list of `FORMAT.md` does.
pub struct Calls {
    rng: Rng,
    /// The last call was handed an extreme ledger, so the next one needs another.
    spoiled: bool,
}

impl Calls {
    pub fn new(seed: u64) -> Self {
        Self { rng: Rng::new(seed), spoiled: false }
    }
}

impl Iterator for Calls {
    type Item = Call;

    fn next(&mut self) -> Option<Call> {
        let rng = &mut self.rng;
        let mut family = records::family(rng);
        options::choose_window(rng, &mut family);
        strands::hand_over(rng, &mut family);
        options::choose_limits(rng, &mut family);
        if rng.chance(10) {
            faults::add(rng, &mut family);
            if rng.chance(30) {
                faults::add(rng, &mut family);
            }
        }
        let extreme = rng.chance(3);
        let ledger = match (extreme, self.spoiled) {
            (true, _) => Some(faults::ledger(rng)),
            (false, true) => Some(Ledger::default()),
            (false, false) => None,
        };
        self.spoiled = extreme;
        Some(Call { ledger, ..Call::new(family) })
    }
}
