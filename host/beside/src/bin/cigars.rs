//! Converts random CIGARs there and back, and holds both calls against the second reader: cigars [SEED [LISTS]]

use beside::cigars::{held, lists};
use beside::rng::Rng;
use std::collections::BTreeMap;
use std::process::ExitCode;

fn run() -> Result<(), String> {
    let mut words = std::env::args().skip(1).map(|word| word.parse::<u64>());
    let mut number = |otherwise| words.next().unwrap_or(Ok(otherwise)).map_err(|e| e.to_string());
    let (seed, count) = (number(1)?, number(1_000_000)?);
    let mut rng = Rng::new(seed);
    let mut ends: BTreeMap<String, usize> = BTreeMap::new();
    for _ in 0..count {
        let lists = lists(&mut rng);
        let end = held(&lists).map_err(|e| format!("{lists:?}\n{e}"))?;
        *ends.entry(end).or_default() += 1;
    }
    for (end, n) in &ends {
        println!("{end}: {n}");
    }
    println!("cigars, seed {seed}: {count} lists: no difference");
    Ok(())
}

fn main() -> ExitCode {
    match run() {
        Ok(()) => ExitCode::SUCCESS,
        Err(difference) => {
            eprintln!("a conversion differs from document 02 on\n{difference}");
            ExitCode::FAILURE
        }
    }
}
