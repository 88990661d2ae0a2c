//! Reads families as text.

use super::Call;
use crate::text::Columns;
use crate::{Ledger, Options, Record, SAMPLES};
use std::str::{FromStr, Split};

/// All calls of a text, or which line is not one of the form.
pub fn read(text: &str) -> Result<Vec<Call>, String> {
    let mut lines = Lines { lines: text.lines(), number: 0 };
    let mut calls = Vec::new();
    let mut before = Before::default();
    while let Some((tag, mut fields)) = lines.next() {
        match tag {
            "G" => before.ledger = Some(lines.read_ledger(fields)?),
            "N" => before.sample = Some(lines.alone(fields)?),
            "GS" => {
                let sample = lines.one(&mut fields)?;
                if sample as usize >= SAMPLES {
                    return Err(lines.wrong("a sample of 0 to 95"));
                }
                before.sample_ledgers.push((sample, lines.read_ledger(fields)?));
            }
            "F" => calls.push(lines.read_family(fields, std::mem::take(&mut before))?),
            _ => return Err(lines.wrong("G, N, GS or F")),
        }
    }
    Ok(calls)
}

/// What stands before a family.
#[derive(Default)]
struct Before {
    ledger: Option<Ledger>,
    sample: Option<u32>,
    sample_ledgers: Vec<(u32, Ledger)>,
}

struct Lines<'a> {
    lines: std::str::Lines<'a>,
    number: usize,
}

impl<'a> Lines<'a> {
    /// The first word of the next line, and the others.
    fn next(&mut self) -> Option<(&'a str, Split<'a, char>)> {
        self.number += 1;
        let mut words = self.lines.next()?.split(' ');
        Some((words.next()?, words))
    }

    fn wrong(&self, expected: &str) -> String {
        format!("line {}: {expected} expected", self.number)
    }

    fn tagged(&mut self, tag: &str) -> Result<Split<'a, char>, String> {
        let line = self.next().filter(|(found, _)| *found == tag);
        line.map(|(_, words)| words).ok_or_else(|| self.wrong(tag))
    }

    fn numbers<N: FromStr>(&self, words: Split<'a, char>) -> Result<Vec<N>, String> {
        words.map(|word| word.parse().map_err(|_| self.wrong("numbers"))).collect()
    }

    fn one<N: FromStr>(&self, words: &mut Split<'a, char>) -> Result<N, String> {
        words.next().and_then(|word| word.parse().ok()).ok_or_else(|| self.wrong("a number"))
    }

    /// The only number of a line.
    fn alone<N: FromStr>(&self, mut words: Split<'a, char>) -> Result<N, String> {
        let number = self.one(&mut words)?;
        if words.next().is_some() { Err(self.wrong("one number")) } else { Ok(number) }
    }

    fn flag(&self, words: &mut Split<'a, char>) -> Result<bool, String> {
        Ok(self.one::<u8>(words)? == 1)
    }

    fn optional<N: FromStr>(&self, words: &mut Split<'a, char>) -> Result<Option<N>, String> {
        let word = words.next().ok_or_else(|| self.wrong("a number or -"))?;
        if word == "-" {
            return Ok(None);
        }
        word.parse().map(Some).map_err(|_| self.wrong("a number or -"))
    }

    fn read_ledger(&self, words: Split<'a, char>) -> Result<Ledger, String> {
        let counts: Result<[u64; 20], _> = self.numbers(words)?.try_into();
        counts.map(Ledger::from).map_err(|_| self.wrong("20 counts"))
    }

    fn read_family(&mut self, mut head: Split<'a, char>, before: Before) -> Result<Call, String> {
        let Before { ledger, sample, sample_ledgers } = before;
        let words = &mut head;
        let [records, ops]: [usize; 2] = [self.one(words)?, self.one(words)?];
        let options = self.read_options(words)?;
        let present = [self.flag(words)?, self.flag(words)?];
        let places = [self.one(words)?, self.one(words)?, self.one(words)?];
        let records: Result<Vec<Record>, _> = (0..records).map(|_| self.read_record()).collect();
        let records = records?;
        let line = self.tagged("O")?;
        let found: Vec<u32> = self.numbers(line)?;
        if found.len() != ops {
            return Err(self.wrong("as many words as announced"));
        }
        let r1 = present[0].then(|| self.read_strand()).transpose()?;
        let r2 = present[1].then(|| self.read_strand()).transpose()?;
        let strands = [r1, r2];
        Ok(Call { ledger, sample, sample_ledgers, records, ops: found, options, strands, places })
    }

    fn read_options(&self, words: &mut Split<'a, char>) -> Result<Options, String> {
        Ok(Options {
            min_reads_per_strand: self.one(words)?,
            max_reads_per_strand: self.optional(words)?,
            min_duplex_length: self.one(words)?,
            legacy_overlap_window: self.flag(words)?,
            outer_bases_length: self.one(words)?,
            outer_bases_qual: self.optional(words)?,
            single_strand_qual: self.optional(words)?,
            max_duplex_disagreements: self.one(words)?,
            max_duplex_disagreement_rate: f64::from_bits(self.one(words)?),
        })
    }

    fn read_record(&mut self) -> Result<Record, String> {
        let mut line = self.tagged("R")?;
        let words = &mut line;
        Ok(Record {
            flags: self.one(words)?,
            name: self.one(words)?,
            verdict: self.flag(words)?,
            rank: self.one(words)?,
            clipped: self.one(words)?,
            position: self.one(words)?,
            start: self.one(words)?,
            count: self.one(words)?,
        })
    }

    fn read_strand(&mut self) -> Result<Columns, String> {
        let bases = self.tagged("B")?.next().unwrap_or_default().as_bytes().to_vec();
        let line = self.tagged("Q")?;
        let quals = self.numbers(line)?;
        let line = self.tagged("D")?;
        let depths = self.numbers(line)?;
        let line = self.tagged("E")?;
        Ok(Columns { bases, quals, depths, errors: self.numbers(line)? })
    }
}
