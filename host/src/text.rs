//! Combining alone as text, all numbers decimal: `C LENGTH MAXDIS RATE`, then `B`, `Q`, `D`, `E` of both strands.

pub mod family;

use crate::{Answer, Limits, Results, Strand};
use std::fmt::{self, Display, Formatter};
use std::str::FromStr;

/// Four columns of their own memory.
#[derive(Clone, Debug, Default, PartialEq)]
pub struct Columns {
    pub bases: Vec<u8>,
    pub quals: Vec<u8>,
    pub depths: Vec<u16>,
    pub errors: Vec<u16>,
}

/// What one call is asked.
#[derive(Clone, Debug)]
pub struct Pair {
    pub first: Columns,
    pub second: Columns,
    pub limits: Limits,
}

impl Columns {
    pub fn strand(&self) -> Strand<'_> {
        Strand {
            bases: &self.bases,
            quals: &self.quals,
            depths: &self.depths,
            errors: &self.errors,
        }
    }

    pub fn results(&mut self) -> Results<'_> {
        Results {
            bases: &mut self.bases,
            quals: &mut self.quals,
            depths: &mut self.depths,
            errors: &mut self.errors,
        }
    }

    /// The first so many positions, in memory of their own.
    pub fn first(&self, length: usize) -> Self {
        let length = length.min(self.bases.len());
        Self {
            bases: self.bases[..length].to_vec(),
            quals: self.quals[..length].to_vec(),
            depths: self.depths[..length].to_vec(),
            errors: self.errors[..length].to_vec(),
        }
    }

    /// Columns of so many positions, every byte of them the same.
    pub fn filled(length: usize, byte: u8) -> Self {
        let word = u16::from_le_bytes([byte; 2]);
        Self {
            bases: vec![byte; length],
            quals: vec![byte; length],
            depths: vec![word; length],
            errors: vec![word; length],
        }
    }
}

impl Pair {
    /// The answer, with the duplex in columns as long as the first strand's bases.
    pub fn combine(&self) -> (Answer, Columns) {
        let mut duplex = Columns::filled(self.first.bases.len(), 0);
        let (first, second) = (self.first.strand(), self.second.strand());
        (crate::combine(first, second, self.limits, duplex.results()), duplex)
    }
}

impl Display for Columns {
    fn fmt(&self, f: &mut Formatter<'_>) -> fmt::Result {
        line(f, "B", &self.bases)?;
        line(f, "Q", &self.quals)?;
        line(f, "D", &self.depths)?;
        line(f, "E", &self.errors)
    }
}

impl Display for Pair {
    fn fmt(&self, f: &mut Formatter<'_>) -> fmt::Result {
        let length = self.first.bases.len();
        let Limits { max_disagreements, max_rate } = self.limits;
        writeln!(f, "C {length} {max_disagreements} {}", max_rate.to_bits())?;
        write!(f, "{}{}", self.first, self.second)
    }
}

/// One line; a rate is the decimal of its 64 bits.
impl Display for Answer {
    fn fmt(&self, f: &mut Formatter<'_>) -> fmt::Result {
        match self {
            Answer::Duplex { bases, disagreements } => {
                writeln!(f, "A combined {bases} {disagreements}")
            }
            Answer::DisagreementCount(count) => writeln!(f, "A count {count}"),
            Answer::DisagreementRate(rate) => writeln!(f, "A rate {}", rate.to_bits()),
            Answer::Refused { number, with } => writeln!(f, "A refused {number} {with}"),
        }
    }
}

fn line<N: Display>(f: &mut Formatter<'_>, name: &str, numbers: &[N]) -> fmt::Result {
    f.write_str(name)?;
    numbers.iter().try_for_each(|number| write!(f, " {number}"))?;
    f.write_str("\n")
}

/// All pairs of a text, or which line is not one of the form.
pub fn read(text: &str) -> Result<Vec<Pair>, String> {
    let mut lines = Lines { lines: text.lines(), number: 0 };
    let mut pairs = Vec::new();
    while let Some(head) = lines.next::<u64>("C")? {
        let &[_, max_disagreements, rate] = head.as_slice() else {
            return Err(lines.wrong("C LENGTH MAXDIS RATE"));
        };
        let limits = Limits { max_disagreements, max_rate: f64::from_bits(rate) };
        pairs.push(Pair { first: lines.columns()?, second: lines.columns()?, limits });
    }
    Ok(pairs)
}

struct Lines<'a> {
    lines: std::str::Lines<'a>,
    number: usize,
}

impl Lines<'_> {
    fn columns(&mut self) -> Result<Columns, String> {
        Ok(Columns {
            bases: self.column("B")?,
            quals: self.column("Q")?,
            depths: self.column("D")?,
            errors: self.column("E")?,
        })
    }

    fn column<N: FromStr>(&mut self, name: &str) -> Result<Vec<N>, String> {
        self.next(name)?.ok_or_else(|| self.wrong(name))
    }

    /// The numbers of the next line, which begins with this name; none at the end.
    fn next<N: FromStr>(&mut self, name: &str) -> Result<Option<Vec<N>>, String> {
        self.number += 1;
        let Some(line) = self.lines.next() else { return Ok(None) };
        let mut words = line.split(' ');
        if words.next() != Some(name) {
            return Err(self.wrong(name));
        }
        let numbers: Result<Vec<N>, _> = words.map(str::parse).collect();
        numbers.map(Some).map_err(|_| self.wrong(name))
    }

    fn wrong(&self, expected: &str) -> String {
        format!("line {}: {expected} expected", self.number)
    }
}
