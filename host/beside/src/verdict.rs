//! One pair through both, and the smallest pair that tells them apart.

use crate::original_call;
use codec_host::text::{Columns, Pair};
use codec_host::{Answer, MAX_POSITIONS, combine};
use std::ops::Range;

/// The answer and all that lies in the results afterwards.
pub struct Seen {
    pub answer: Answer,
    pub results: Columns,
}

/// How the results lie before a call: so many places beyond the strands' length, each byte the same.
#[derive(Clone, Copy)]
pub struct Before {
    pub beyond: usize,
    pub byte: u8,
}

impl Before {
    fn results(self, pair: &Pair) -> Columns {
        Columns::filled(pair.first.bases.len() + self.beyond, self.byte)
    }
}

pub fn found(pair: &Pair, before: Before) -> Seen {
    let mut results = before.results(pair);
    let (first, second) = (pair.first.strand(), pair.second.strand());
    Seen { answer: combine(first, second, pair.limits, results.results()), results }
}

/// The original's answer and duplex; above 2,048 positions, where it has no limit, the refusal of document 01.
pub fn expected(pair: &Pair, before: Before) -> Seen {
    let mut results = before.results(pair);
    let length = pair.first.bases.len();
    if length > MAX_POSITIONS {
        return Seen { answer: Answer::Refused { number: 12, with: 0 }, results };
    }
    let (answer, duplex) = original_call::answer(pair);
    if let Some(duplex) = duplex {
        results.bases[..length].copy_from_slice(&duplex.bases);
        results.quals[..length].copy_from_slice(&duplex.quals);
        results.depths[..length].copy_from_slice(&duplex.depths);
        results.errors[..length].copy_from_slice(&duplex.errors);
    }
    Seen { answer, results }
}

/// Rates are compared by their bits, so that the two zeros differ.
fn same(a: &Seen, b: &Seen) -> bool {
    let bits = |seen: &Seen| match seen.answer {
        Answer::DisagreementRate(rate) => Some(rate.to_bits()),
        _ => None,
    };
    a.answer == b.answer && bits(a) == bits(b) && a.results == b.results
}

/// The answer where both agree; otherwise the smallest input that shows the difference, as text.
pub fn agreed(pair: &Pair, before: Before) -> Result<Answer, String> {
    let seen = found(pair, before);
    if same(&seen, &expected(pair, before)) {
        return Ok(seen.answer);
    }
    let pair = smallest(pair, |pair| !same(&found(pair, before), &expected(pair, before)));
    let (found, expected) = (found(&pair, before), expected(&pair, before));
    let Before { beyond, byte } = before;
    Err(format!(
        "{pair}results: {beyond} places longer, filled with {byte}\nexpected:\n{}{}found:\n{}{}",
        expected.answer, expected.results, found.answer, found.results
    ))
}

/// Halves, then ever smaller parts, are left out as long as the difference stays.
fn smallest(pair: &Pair, differs: impl Fn(&Pair) -> bool) -> Pair {
    let mut best = pair.clone();
    let mut step = best.first.bases.len() / 2;
    while step > 0 {
        let mut at = 0;
        while at + step <= best.first.bases.len() {
            let shorter = without(&best, at..at + step);
            if differs(&shorter) { best = shorter } else { at += step }
        }
        step /= 2;
    }
    best
}

fn without(pair: &Pair, range: Range<usize>) -> Pair {
    let mut shorter = pair.clone();
    for strand in [&mut shorter.first, &mut shorter.second] {
        strand.bases.drain(range.clone());
        strand.quals.drain(range.clone());
        strand.depths.drain(range.clone());
        strand.errors.drain(range.clone());
    }
    shorter
}
