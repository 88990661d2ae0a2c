//! Selection alone: which records of a family stay, and the window, length and orientation of their duplex.

use crate::sys;

/// Most records of a family.
pub const MAX_RECORDS: usize = 512;

/// One record, laid out as the exported call reads it; a slice of them is lent as it lies.
#[repr(C)]
#[derive(Clone, Copy, Debug, Default, PartialEq, Eq)]
pub struct Record {
    /// SAM's flags.
    pub flags: u16,
    /// Equal for equal names.
    pub name: u32,
    /// Whether the pair test says yes; only that of a name's earlier record counts.
    pub verdict: bool,
    /// The read cap keeps the lowest.
    pub rank: i32,
    /// The read's length after clipping.
    pub clipped: u32,
    /// The first reference base after clipping, from 1.
    pub position: u32,
    /// Where the record's part of the operation words begins.
    pub start: u32,
    /// How many operation words it has.
    pub count: u32,
}

/// The original's options, with its default.
#[derive(Clone, Copy, Debug, PartialEq)]
pub struct Options {
    pub min_reads_per_strand: u64,
    pub max_reads_per_strand: Option<u64>,
    pub min_duplex_length: u64,
    pub legacy_overlap_window: bool,
    pub outer_bases_length: u64,
    pub outer_bases_qual: Option<u8>,
    pub single_strand_qual: Option<u8>,
    pub max_duplex_disagreements: u64,
    pub max_duplex_disagreement_rate: f64,
}

impl Default for Options {
    fn default() -> Self {
        Self {
            min_reads_per_strand: 1,
            max_reads_per_strand: None,
            min_duplex_length: 1,
            legacy_overlap_window: false,
            outer_bases_length: 5,
            outer_bases_qual: None,
            single_strand_qual: None,
            max_duplex_disagreements: u64::MAX,
            max_duplex_disagreement_rate: 1.0,
        }
    }
}

/// One bit a record: record i, from 0, is bit i mod 64 of word i / 64.
pub type Marks = [u64; 8];

/// How selection ends.
#[derive(Clone, Copy, Debug, PartialEq, Eq)]
pub enum Selection {
    /// The ends of the window, the duplex's length, which sides are negative, and the records of each side that stay.
    Kept {
        start: u64,
        end: u64,
        length: u64,
        r1_is_negative: bool,
        r2_is_negative: bool,
        r1: Marks,
        r2: Marks,
    },
    /// No record entered a side.
    Empty,
    /// The number of the reason that ends the family.
    Rejected(u32),
    /// The number of document 01's table, and the record or 0 that goes with it.
    Refused { number: u32, with: u64 },
}

/// Steps 1 to 7 of a family; its records' operations are parts of `ops`.
pub fn select(records: &[Record], ops: &[u32], options: &Options) -> Selection {
    // SAFETY: both pointers go with their own slice's length, and `Record` is laid out as the call reads it.
    let answer = unsafe {
        sys::codec_ffi_select(
            records.as_ptr(),
            records.len(),
            ops.as_ptr(),
            ops.len(),
            options.into(),
        )
    };
    let sys::SelectAnswer { decision, r1, r2 } = answer;
    match decision.kind {
        0 => Selection::Kept {
            start: decision.start,
            end: decision.end,
            length: decision.length,
            r1_is_negative: decision.r1_is_negative,
            r2_is_negative: decision.r2_is_negative,
            r1,
            r2,
        },
        1 => Selection::Empty,
        2 => Selection::Rejected(decision.number),
        3 => Selection::Refused { number: decision.number, with: decision.with },
        kind => unreachable!("the contract has kinds 0 to 3, this is {kind}"),
    }
}

impl From<&Options> for sys::Options {
    fn from(options: &Options) -> Self {
        Self {
            min_reads_per_strand: options.min_reads_per_strand,
            has_max_reads_per_strand: options.max_reads_per_strand.is_some(),
            max_reads_per_strand: options.max_reads_per_strand.unwrap_or(0),
            min_duplex_length: options.min_duplex_length,
            legacy_overlap_window: options.legacy_overlap_window,
            outer_bases_length: options.outer_bases_length,
            has_outer_bases_qual: options.outer_bases_qual.is_some(),
            outer_bases_qual: options.outer_bases_qual.unwrap_or(0),
            has_single_strand_qual: options.single_strand_qual.is_some(),
            single_strand_qual: options.single_strand_qual.unwrap_or(0),
            max_duplex_disagreements: options.max_duplex_disagreements,
            max_duplex_disagreement_rate: options.max_duplex_disagreement_rate,
        }
    }
}
