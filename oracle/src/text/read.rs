//! Reads lists of family calls.

use crate::model::{Call, Family, Ledger, Options, Record, SAMPLES, Strand};
use std::str::FromStr;

pub struct Lines<'a> {
    lines: std::iter::Peekable<std::iter::Enumerate<std::str::Split<'a, char>>>,
}

/// The fields of one line behind its first one.
pub struct Fields<'a> {
    number: usize,
    fields: std::str::Split<'a, char>,
}

impl<'a> Lines<'a> {
    pub fn new(text: &'a str) -> Self {
        let body = text.strip_suffix('\n').unwrap_or(text);
        Self { lines: body.split('\n').enumerate().peekable() }
    }

    pub fn next_is(&mut self, tag: &str) -> bool {
        self.lines.peek().is_some_and(|(_, line)| line.split(' ').next() == Some(tag))
    }

    pub fn at_end(&mut self) -> bool {
        self.lines.peek().is_none_or(|(_, line)| line.is_empty())
    }

    pub fn line(&mut self, tag: &str) -> Fields<'a> {
        let (index, line) = self.lines.next().unwrap_or_else(|| panic!("no line {tag}"));
        let mut fields = line.split(' ');
        let found = fields.next();
        assert_eq!(found, Some(tag), "line {}: {tag} expected", index + 1);
        Fields { number: index + 1, fields }
    }
}

impl<'a> Fields<'a> {
    pub fn word(&mut self) -> &'a str {
        self.fields.next().unwrap_or_else(|| panic!("line {}: a field is missing", self.number))
    }

    pub fn number<N: FromStr>(&mut self) -> N {
        let word = self.word();
        parse(word, self.number)
    }

    pub fn flag(&mut self) -> bool {
        self.number::<u8>() == 1
    }

    pub fn optional<N: FromStr>(&mut self) -> Option<N> {
        let word = self.word();
        (word != "-").then(|| parse(word, self.number))
    }

    pub fn rest<N: FromStr>(self) -> Vec<N> {
        let line = self.number;
        self.fields.map(|word| parse(word, line)).collect()
    }
}

fn parse<N: FromStr>(word: &str, line: usize) -> N {
    word.parse().unwrap_or_else(|_| panic!("line {line}: not a number here: {word}"))
}

pub fn calls(text: &str) -> Vec<Call> {
    let mut lines = Lines::new(text);
    let mut calls = Vec::new();
    while !lines.at_end() {
        let (mut ledger, mut sample, mut sample_ledgers) = (None, None, Vec::new());
        loop {
            if lines.next_is("G") {
                ledger = Some(figures(lines.line("G")));
            } else if lines.next_is("N") {
                sample = Some(lines.line("N").number());
            } else if lines.next_is("GS") {
                let mut line = lines.line("GS");
                let sample = line.number();
                assert!(sample < SAMPLES, "sample {sample} has no ledger");
                sample_ledgers.push((sample, figures(line)));
            } else {
                break;
            }
        }
        if !lines.at_end() {
            calls.push(Call { ledger, sample, sample_ledgers, family: family(&mut lines) });
        }
    }
    calls
}

fn figures(line: Fields<'_>) -> Ledger {
    Ledger(line.rest::<u64>().try_into().expect("twenty figures"))
}

fn family(lines: &mut Lines<'_>) -> Family {
    let mut head = lines.line("F");
    let (records, words): (usize, usize) = (head.number(), head.number());
    let options = options(&mut head);
    let present = [head.flag(), head.flag()];
    let room = [head.number(), head.number(), head.number()];
    let records = (0..records).map(|_| record(lines.line("R"))).collect();
    let operations: Vec<u32> = lines.line("O").rest();
    assert_eq!(operations.len(), words, "as many words as announced");
    let strands = present.map(|is| is.then(|| strand(lines)));
    Family { records, words: operations, options, strands, room }
}

fn options(head: &mut Fields<'_>) -> Options {
    Options {
        min_reads: head.number(),
        cap: head.optional(),
        min_duplex_length: head.number(),
        legacy: head.flag(),
        outer_length: head.number(),
        outer_quality: head.optional(),
        single_strand_quality: head.optional(),
        max_disagreements: head.number(),
        max_rate: f64::from_bits(head.number()),
    }
}

fn record(mut line: Fields<'_>) -> Record {
    Record {
        flags: line.number(),
        name: line.number(),
        verdict: line.flag(),
        rank: line.number(),
        clipped_length: line.number(),
        position: line.number(),
        start: line.number(),
        count: line.number(),
    }
}

pub fn strand(lines: &mut Lines<'_>) -> Strand {
    let mut bases = lines.line("B");
    Strand {
        bases: bases.fields.next().unwrap_or("").as_bytes().to_vec(),
        quals: lines.line("Q").rest(),
        depths: lines.line("D").rest(),
        errors: lines.line("E").rest(),
    }
}
