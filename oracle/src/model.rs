//! A family call and its answer, as document 01 hands them over.

#[derive(Debug, Clone, PartialEq)]
pub struct Record {
    pub flags: u16,
    pub name: u32,
    pub verdict: bool,
    pub rank: i32,
    pub clipped_length: u32,
    pub position: u32,
    pub start: u32,
    pub count: u32,
}

#[derive(Debug, Clone, PartialEq)]
pub struct Options {
    pub min_reads: u64,
    pub cap: Option<u64>,
    pub min_duplex_length: u64,
    pub legacy: bool,
    pub outer_length: u64,
    pub outer_quality: Option<u8>,
    pub single_strand_quality: Option<u8>,
    pub max_disagreements: u64,
    pub max_rate: f64,
}

/// Four columns; only a refused call may lend them in unequal lengths.
#[derive(Debug, Clone, Default, PartialEq)]
pub struct Strand {
    pub bases: Vec<u8>,
    pub quals: Vec<u8>,
    pub depths: Vec<u16>,
    pub errors: Vec<u16>,
}

impl Strand {
    pub fn lengths(&self) -> [usize; 4] {
        [self.bases.len(), self.quals.len(), self.depths.len(), self.errors.len()]
    }

    /// Reverse complement, for strands that are made up here.
    pub fn turn(&mut self) {
        let pairs = [(b'A', b'T'), (b'C', b'G'), (b'G', b'C'), (b'T', b'A')];
        for base in &mut self.bases {
            *base = pairs.iter().find(|pair| pair.0 == *base).map_or(*base, |pair| pair.1);
        }
        self.bases.reverse();
        self.quals.reverse();
        self.depths.reverse();
        self.errors.reverse();
    }
}

#[derive(Debug, Clone, PartialEq)]
pub struct Family {
    pub records: Vec<Record>,
    pub words: Vec<u32>,
    pub options: Options,
    /// R1's and R2's strand, where present.
    pub strands: [Option<Strand>; 2],
    /// Lengths of the lent result columns, list columns and marks.
    pub room: [u64; 3],
}

impl Family {
    /// The record's operations, where they lie in the slice.
    pub fn operations(&self, record: &Record) -> Option<&[u32]> {
        let start = record.start as usize;
        self.words.get(start..start + record.count as usize)
    }
}

/// Families, records, ten reasons, passed over, no strand, used, rejected for disagreement,
/// duplexes, bases, duplex bases, disagreements.
#[derive(Debug, Clone, Copy, Default, PartialEq)]
pub struct Ledger(pub [u64; 20]);

impl Ledger {
    pub const FAMILIES: usize = 0;
    pub const RECORDS: usize = 1;
    /// Reason r is counted at this place plus r.
    pub const REASONS: usize = 1;
    pub const PASSED_OVER: usize = 12;
    pub const NO_STRAND: usize = 13;
    pub const USED: usize = 14;
    pub const REJECTED_FAMILIES: usize = 15;
    pub const DUPLEXES: usize = 16;
    pub const BASES: usize = 17;
    pub const DUPLEX_BASES: usize = 18;
    pub const DISAGREEMENTS: usize = 19;
}

/// Samples of a run: their numbers are below this.
pub const SAMPLES: u32 = 96;

/// The run's ledger, and one for each sample.
#[derive(Debug, Clone, PartialEq)]
pub struct Books {
    pub run: Ledger,
    pub samples: Vec<Ledger>,
}

impl Default for Books {
    fn default() -> Self {
        Self { run: Ledger::default(), samples: vec![Ledger::default(); SAMPLES as usize] }
    }
}

/// One family of a list; a ledger here replaces the one left by the call before.
#[derive(Debug, Clone, PartialEq)]
pub struct Call {
    pub ledger: Option<Ledger>,
    /// The sample of this call and of those after it.
    pub sample: Option<u32>,
    pub sample_ledgers: Vec<(u32, Ledger)>,
    pub family: Family,
}

impl Call {
    /// With what the call before left, for the sample that it named.
    pub fn new(family: Family) -> Self {
        Self { ledger: None, sample: None, sample_ledgers: Vec::new(), family }
    }
}

/// Document 01's number of a refusal and what goes with it.
#[derive(Debug, Clone, Copy, PartialEq)]
pub struct Refusal(pub u8, pub u64);

#[derive(Debug, Clone, PartialEq)]
pub enum Ending {
    /// Duplex, R1's strand, R2's strand.
    Called(Box<[Strand; 3]>),
    Empty,
    NoStrand,
    Rejected(u8),
}

pub type Marks = [u64; 8];

#[derive(Debug, Clone, PartialEq)]
pub struct Answer {
    pub ending: Ending,
    /// Record and reason, sorted by record.
    pub list: Vec<(usize, u8)>,
    pub marks: Marks,
    pub books: Books,
}

#[derive(Debug, Clone, PartialEq)]
pub enum Selection {
    Kept { window: (i64, i64), length: u64, r1_is_negative: bool, kept: [Marks; 2] },
    Empty,
    Rejected(u8),
}

/// Bits of the given records, record i at bit i mod 64 of word i / 64.
pub fn marks_of(records: impl IntoIterator<Item = usize>) -> Marks {
    let mut marks = [0; 8];
    for record in records {
        marks[record / 64] |= 1 << (record % 64);
    }
    marks
}
