//! Combining alone: two sets of columns and the two limits, by the original and by the plain reader.

use crate::answers::run;
use crate::driver::{to_columns, to_strand};
use crate::generate::{columns, rng::Rng};
use crate::model::{Options, Strand};
use crate::plain::Reader;
use crate::plain::position::{Limit, tallies};
use crate::text;
use original::codec_caller::{CodecConsensusError, CodecConsensusOptions, combine_alone};

#[derive(Debug, Clone, PartialEq)]
pub struct Pair {
    pub strands: [Strand; 2],
    pub max_disagreements: u64,
    pub max_rate: f64,
}

/// The duplex with both tallies, or the limit that rejected.
pub type Combined = Result<(Strand, [u64; 2]), Limit>;

pub fn by_original(pair: &Pair) -> Combined {
    let options = CodecConsensusOptions {
        max_duplex_disagreements: pair.max_disagreements as usize,
        max_duplex_disagreement_rate: pair.max_rate,
        ..CodecConsensusOptions::default()
    };
    let [first, second] = pair.strands.clone().map(to_columns);
    match combine_alone(options, first, second) {
        Ok((duplex, both, unequal)) => Ok((to_strand(duplex), [both, unequal])),
        Err(CodecConsensusError::DuplexDisagreementCount { disagreements }) => {
            Err(Limit::Count(disagreements as u64))
        }
        Err(CodecConsensusError::DuplexDisagreementRate { rate }) => Err(Limit::Rate(rate)),
        Err(CodecConsensusError::Other(error)) => panic!("{error}"),
    }
}

fn by_plain(pair: &Pair) -> Combined {
    let [first, second] = &pair.strands;
    let tally = tallies(first, second);
    match Reader(None).limits(&limits_only(pair), tally, first.bases.len()) {
        Some(limit) => Err(limit),
        None => Ok((Reader(None).combined(first, second), tally)),
    }
}

fn limits_only(pair: &Pair) -> Options {
    Options {
        min_reads: 0,
        cap: None,
        min_duplex_length: 0,
        legacy: false,
        outer_length: 0,
        outer_quality: None,
        single_strand_quality: None,
        max_disagreements: pair.max_disagreements,
        max_rate: pair.max_rate,
    }
}

/// Pairs of columns until there are so many positions.
pub fn generated(seed: u64, positions: usize) -> Vec<Pair> {
    let mut rng = Rng::new(seed);
    let mut pairs: Vec<Pair> = Vec::new();
    let mut left = positions;
    while left > 0 {
        let pair = columns(&mut rng, left);
        left -= pair.strands[0].bases.len();
        pairs.push(pair);
    }
    pairs
}

/// One answer by the original, as text.
pub fn answer(pair: &Pair) -> String {
    let mut out = String::new();
    text::columns::write_combined(&mut out, &by_original(pair));
    out
}

pub fn with_plain(seed: u64, positions: usize) -> Result<(), String> {
    let pairs = generated(seed, positions);
    let mut rejected = 0;
    for pair in &pairs {
        let expected = by_original(pair);
        rejected += usize::from(expected.is_err());
        if by_plain(pair) != expected {
            return Err(shown(&smallest(pair, |p| by_plain(p) != by_original(p)), "plain reader"));
        }
    }
    let columns = pairs.len();
    println!(
        "plain reader: {positions} positions of seed {seed} in {columns} columns ({rejected} rejected): no difference"
    );
    Ok(())
}

/// A program that reads the `C` form, on the same columns.
pub fn with_program(program: &str, seed: u64, positions: usize) -> Result<(), String> {
    let pairs = generated(seed, positions);
    let written = |pairs: &[Pair]| {
        let mut out = String::new();
        pairs.iter().for_each(|pair| text::columns::write_pair(&mut out, pair));
        out
    };
    let found = run(program, &written(&pairs))?;
    let expected: String = pairs.iter().map(answer).collect();
    if found != expected {
        let differs = |pair: &Pair| {
            run(program, &written(std::slice::from_ref(pair))).as_deref() != Ok(&answer(pair))
        };
        let first = pairs.iter().find(|pair| differs(pair));
        return Err(first.map_or("only whole lists differ".to_string(), |pair| {
            shown(&smallest(pair, differs), program)
        }));
    }
    println!("{program}: {positions} positions of seed {seed}: no difference");
    Ok(())
}

/// Pairs that a table can hold, without limits.
pub fn tables(seed: u64, positions: usize) -> Vec<Pair> {
    let named =
        |pair: &Pair| pair.strands.iter().all(|s| s.bases.iter().all(|b| b"ACGTNn".contains(b)));
    let open = |mut pair: Pair| {
        (pair.max_disagreements, pair.max_rate) = (u64::MAX, f64::NAN);
        pair
    };
    generated(seed, positions).into_iter().filter(named).map(open).collect()
}

/// The program duplex-table, on tables without limits of at most 2,048 positions.
pub fn with_table_program(program: &str, seed: u64, positions: usize) -> Result<(), String> {
    let pairs = tables(seed, positions);
    for pair in &pairs {
        let differs = |pair: &Pair| {
            let input = text::table::write_input(&pair.strands);
            run(program, &input).as_deref() != Ok(&table(&input))
        };
        if differs(pair) {
            return Err(shown(&smallest(pair, differs), program));
        }
    }
    println!("{program}: {} tables of seed {seed}: no difference", pairs.len());
    Ok(())
}

/// What duplex-table writes, the positions combined by the original.
pub fn table(input: &str) -> String {
    match text::table::read(input) {
        Err(line) => format!("refused 13 {line}\n"),
        Ok(strands) => {
            let pair = Pair { strands, max_disagreements: u64::MAX, max_rate: f64::NAN };
            let (duplex, _) = by_original(&pair).expect("no limits");
            text::table::write_output(&duplex)
        }
    }
}

/// Halves, then single positions, as long as the difference stays.
fn smallest(pair: &Pair, differs: impl Fn(&Pair) -> bool) -> Pair {
    let mut best = pair.clone();
    let mut step = best.strands[0].bases.len() / 2;
    while step > 0 {
        let mut at = 0;
        while at + step <= best.strands[0].bases.len() {
            let shorter = without(&best, at..at + step);
            if differs(&shorter) { best = shorter } else { at += step }
        }
        step /= 2;
    }
    best
}

fn without(pair: &Pair, range: std::ops::Range<usize>) -> Pair {
    let mut shorter = pair.clone();
    for strand in &mut shorter.strands {
        strand.bases.drain(range.clone());
        strand.quals.drain(range.clone());
        strand.depths.drain(range.clone());
        strand.errors.drain(range.clone());
    }
    shorter
}

fn shown(pair: &Pair, other: &str) -> String {
    let mut out = format!("{other} differs from the original on\n");
    text::columns::write_pair(&mut out, pair);
    out + "original:\n" + &answer(pair)
}
