//! Holds the exported call against the original: compare [SEED [POSITIONS]]

use beside::rng::Rng;
use beside::verdict::{Before, agreed};
use beside::{enumerated, random};
use codec_host::text::Pair;
use codec_host::{Answer, MAX_POSITIONS};
use std::process::ExitCode;

/// What was compared, and how it ended.
#[derive(Default)]
struct Tally {
    calls: usize,
    positions: usize,
    rejected: usize,
    refused: usize,
}

impl Tally {
    fn add(&mut self, pair: &Pair, before: Before) -> Result<(), String> {
        match agreed(pair, before)? {
            Answer::Duplex { .. } => self.positions += pair.first.bases.len(),
            Answer::Refused { .. } => self.refused += 1,
            _ => self.rejected += 1,
        }
        self.calls += 1;
        Ok(())
    }

    fn report(&self, what: &str) {
        let Tally { calls, positions, rejected, refused } = self;
        println!(
            "{what}: {calls} calls, {positions} positions combined, {rejected} calls rejected, {refused} refused: no difference"
        );
    }
}

fn every_position() -> Result<(), String> {
    let mut tally = Tally::default();
    enumerated::positions(|pair| tally.add(&pair, Before { beyond: 1, byte: 0xa5 }))?;
    tally.report("every position");
    Ok(())
}

fn every_limit() -> Result<(), String> {
    let mut tally = Tally::default();
    enumerated::limits(|pair| tally.add(&pair, Before { beyond: 0, byte: 0xa5 }))?;
    tally.report("every limit");
    Ok(())
}

/// Every length up to two above the limit in turn, with the shortest and the longest ones in between.
fn random_columns(seed: u64, positions: usize) -> Result<(), String> {
    let mut rng = Rng::new(seed);
    let mut tally = Tally::default();
    let mut in_turn = (0..=MAX_POSITIONS + 2).cycle();
    while tally.positions < positions {
        let short = rng.below(40);
        let long = MAX_POSITIONS - rng.below(4);
        for length in in_turn.next().into_iter().chain([short, long]) {
            let before = Before { beyond: rng.below(4), byte: rng.draw() as u8 };
            tally.add(&random::pair(&mut rng, length), before)?;
        }
    }
    tally.report(&format!("random, seed {seed}"));
    Ok(())
}

fn run() -> Result<(), String> {
    let mut words = std::env::args().skip(1).map(|word| word.parse::<u64>());
    let mut number = |otherwise| words.next().unwrap_or(Ok(otherwise)).map_err(|e| e.to_string());
    let (seed, positions) = (number(1)?, number(20_000_000)?);
    every_position()?;
    every_limit()?;
    random_columns(seed, positions as usize)
}

fn main() -> ExitCode {
    match run() {
        Ok(()) => ExitCode::SUCCESS,
        Err(difference) => {
            eprintln!("the exported call differs from the original on\n{difference}");
            ExitCode::FAILURE
        }
    }
}
