//! Combining alone as text: `C LENGTH MAXDIS RATE`, then both strands' columns, all as decimals.

use super::read::Lines;
use super::write::numbers;
use crate::combine::{Combined, Pair};
use crate::model::Strand;
use crate::plain::position::Limit;

pub fn pairs(text: &str) -> Vec<Pair> {
    let mut lines = Lines::new(text);
    let mut pairs = Vec::new();
    while !lines.at_end() {
        let mut head = lines.line("C");
        let length: usize = head.number();
        let (max_disagreements, rate): (u64, u64) = (head.number(), head.number());
        let strands = [(); 2].map(|()| strand(&mut lines));
        let even = strands.iter().flat_map(Strand::lengths).all(|column| column == length);
        assert!(even, "eight columns of the announced length");
        pairs.push(Pair { strands, max_disagreements, max_rate: f64::from_bits(rate) });
    }
    pairs
}

fn strand(lines: &mut Lines<'_>) -> Strand {
    Strand {
        bases: lines.line("B").rest(),
        quals: lines.line("Q").rest(),
        depths: lines.line("D").rest(),
        errors: lines.line("E").rest(),
    }
}

fn write_strand(out: &mut String, strand: &Strand) {
    numbers(out, "B", &strand.bases);
    numbers(out, "Q", &strand.quals);
    numbers(out, "D", &strand.depths);
    numbers(out, "E", &strand.errors);
}

pub fn write_pair(out: &mut String, pair: &Pair) {
    let length = pair.strands[0].bases.len() as u64;
    numbers(out, "C", [length, pair.max_disagreements, pair.max_rate.to_bits()]);
    pair.strands.iter().for_each(|strand| write_strand(out, strand));
}

/// Tallies and duplex, or the limit with its figure: the count, or the bits of the rate.
pub fn write_combined(out: &mut String, combined: &Combined) {
    match combined {
        Ok((duplex, tally)) => {
            numbers(out, "A combined", tally);
            write_strand(out, duplex);
        }
        Err(Limit::Count(count)) => numbers(out, "A count", [count]),
        Err(Limit::Rate(rate)) => numbers(out, "A rate", [rate.to_bits()]),
    }
}
