//! A whole family: its duplex, the records that it rejects, and the ledger that goes from call to call.

use crate::samples::Samples;
use crate::select::{Options, Record};
use crate::{Results, Strand, sys};

/// Least places of a lent list column.
pub const LIST_PLACES: usize = 512;
/// Least words of lent marks.
pub const MARK_WORDS: usize = 8;

/// What the families so far have come to; fresh by default. A call takes one and gives the next.
#[repr(C)]
#[derive(Clone, Copy, Debug, Default, PartialEq, Eq)]
pub struct Ledger {
    pub families: u64,
    pub records: u64,
    /// Records by reason; that with number n stands at n - 1.
    pub reasons: [u64; 10],
    pub passed_over: u64,
    pub no_strand: u64,
    pub used: u64,
    /// Families rejected for their disagreements.
    pub disagreement_rejected: u64,
    pub duplexes: u64,
    pub bases: u64,
    /// Positions that both strands call.
    pub duplex_bases: u64,
    pub disagreements: u64,
}

/// What follows from a ledger's counts.
#[derive(Clone, Copy, Debug, PartialEq)]
pub struct Rates {
    /// All rejected records.
    pub filtered: u64,
    /// The original's `duplex_disagreement_rate`.
    pub rate: f64,
    /// The same in millionths, rounded down.
    pub millionths: u64,
}

/// The number of document 01's table, and what goes with it.
#[derive(Clone, Copy, Debug, PartialEq, Eq)]
pub struct Refusal {
    pub number: u32,
    pub with: u64,
}

impl Ledger {
    /// The reads filtered and the rate of disagreements; refusal 10 for counts that no calls can have led to.
    pub fn rates(self) -> Result<Rates, Refusal> {
        // SAFETY: numbers by value, in and out.
        let answer = unsafe { sys::codec_ffi_rates(self) };
        let sys::RatesAnswer { kind, number, with, filtered, rate, millionths } = answer;
        if kind == 0 {
            Ok(Rates { filtered, rate, millionths })
        } else {
            Err(Refusal { number, with })
        }
    }

    /// The twenty counts in the order of the fields.
    pub fn counts(&self) -> [u64; 20] {
        let [a, b, c, d, e, f, g, h, i, j] = self.reasons;
        let [families, records] = [self.families, self.records];
        let Ledger { passed_over, no_strand, used, disagreement_rejected, duplexes, .. } = *self;
        let Ledger { bases, duplex_bases, disagreements, .. } = *self;
        [
            families,
            records,
            a,
            b,
            c,
            d,
            e,
            f,
            g,
            h,
            i,
            j,
            passed_over,
            no_strand,
            used,
            disagreement_rejected,
            duplexes,
            bases,
            duplex_bases,
            disagreements,
        ]
    }

    /// How many records had this reason.
    pub fn rejected(&self, reason: Reason) -> u64 {
        self.reasons[reason as usize - 1]
    }
}

/// The twenty counts in the order of the fields.
impl From<[u64; 20]> for Ledger {
    fn from(counts: [u64; 20]) -> Self {
        let [families, records, reasons @ .., passed_over, no_strand, used, q, r, s, t, u] = counts;
        Self {
            families,
            records,
            reasons,
            passed_over,
            no_strand,
            used,
            disagreement_rejected: q,
            duplexes: r,
            bases: s,
            duplex_bases: t,
            disagreements: u,
        }
    }
}

/// Why records are rejected, by the original's names; as a number, 1 to 10.
#[repr(u8)]
#[derive(Clone, Copy, Debug, PartialEq, Eq, Hash)]
pub enum Reason {
    FragmentRead = 1,
    NotPrimaryFrPair,
    InsufficientReads,
    MinorityAlignment,
    Downsampled,
    InsufficientOverlap,
    IndelErrorBetweenStrands,
    Dovetail,
    ClipOverlapFailed,
    HighDuplexDisagreement,
}

impl Reason {
    /// All ten, in the order of their numbers.
    pub const ALL: [Reason; 10] = [
        Reason::FragmentRead,
        Reason::NotPrimaryFrPair,
        Reason::InsufficientReads,
        Reason::MinorityAlignment,
        Reason::Downsampled,
        Reason::InsufficientOverlap,
        Reason::IndelErrorBetweenStrands,
        Reason::Dovetail,
        Reason::ClipOverlapFailed,
        Reason::HighDuplexDisagreement,
    ];

    /// The reason with this number.
    pub fn numbered(number: u8) -> Option<Reason> {
        Self::ALL.get(usize::from(number).wrapping_sub(1)).copied()
    }
}

/// Where the answers go. Each column of the three strands needs [`MAX_POSITIONS`](crate::MAX_POSITIONS) places, each of the list
/// [`LIST_PLACES`], the marks [`MARK_WORDS`]; what lies beyond the answer stays as it is. [`Room`](crate::Room) has just that.
#[derive(Debug)]
pub struct Lent<'a> {
    pub duplex: Results<'a>,
    /// R1's strand as it lies under the duplex: turned round, padded.
    pub r1: Results<'a>,
    /// R2's strand, likewise.
    pub r2: Results<'a>,
    /// The rejected records, in no promised order.
    pub listed: &'a mut [u32],
    /// Their reasons, by number.
    pub reasons: &'a mut [u8],
    /// One bit for each rejected record, but not for the downsampled.
    pub marks: &'a mut [u64],
}

/// How a family ends.
#[derive(Clone, Copy, Debug, PartialEq, Eq)]
pub enum Ending {
    /// The first places of all twelve columns, so many, hold the duplex and both strands. Nothing else writes them.
    Called { length: usize },
    /// No record entered a side.
    Empty,
    /// A strand is absent; nothing is rejected for that.
    NoStrand,
    /// Why the family ends without a duplex.
    Rejected(Reason),
    /// Nothing was written, the ledger is the one given, and all samples' are as they were.
    Refused(Refusal),
}

/// The ending, how many records the list has, and the run's ledger for the next call.
#[derive(Clone, Copy, Debug, PartialEq, Eq)]
pub struct FamilyAnswer {
    pub ending: Ending,
    pub listed: usize,
    pub ledger: Ledger,
}

/// Calls a family: its records with their parts of `ops`, and the strands built of each side's reads, where there are any. What it
/// comes to is counted in the run's ledger and in the sample's, the same in both; no other sample's is looked at or touched. A
/// sample above 95 is refusal 20, before all others.
#[expect(clippy::too_many_arguments, reason = "as many as a family has")]
pub fn family(
    records: &[Record],
    ops: &[u32],
    options: &Options,
    r1: Option<Strand<'_>>,
    r2: Option<Strand<'_>>,
    ledger: Ledger,
    sample: u32,
    samples: &mut Samples,
    lent: Lent<'_>,
) -> FamilyAnswer {
    let Lent { duplex: d, r1: s1, r2: s2, listed, reasons, marks } = lent;
    let (has_r1, has_r2) = (r1.is_some(), r2.is_some());
    let (r1, r2) = (r1.unwrap_or(Strand::NONE), r2.unwrap_or(Strand::NONE));
    // SAFETY: every pointer goes with its own slice's length, records, ledger and samples are laid out as the call reads
    // them, and `&mut` keeps all that is written apart.
    let answer = unsafe {
        sys::codec_ffi_family(
            records.as_ptr(),
            records.len(),
            ops.as_ptr(),
            ops.len(),
            options.into(),
            has_r1,
            r1.bases.as_ptr(),
            r1.bases.len(),
            r1.quals.as_ptr(),
            r1.quals.len(),
            r1.depths.as_ptr(),
            r1.depths.len(),
            r1.errors.as_ptr(),
            r1.errors.len(),
            has_r2,
            r2.bases.as_ptr(),
            r2.bases.len(),
            r2.quals.as_ptr(),
            r2.quals.len(),
            r2.depths.as_ptr(),
            r2.depths.len(),
            r2.errors.as_ptr(),
            r2.errors.len(),
            ledger,
            sample,
            samples.counts_mut(),
            d.bases.as_mut_ptr(),
            d.bases.len(),
            d.quals.as_mut_ptr(),
            d.quals.len(),
            d.depths.as_mut_ptr(),
            d.depths.len(),
            d.errors.as_mut_ptr(),
            d.errors.len(),
            s1.bases.as_mut_ptr(),
            s1.bases.len(),
            s1.quals.as_mut_ptr(),
            s1.quals.len(),
            s1.depths.as_mut_ptr(),
            s1.depths.len(),
            s1.errors.as_mut_ptr(),
            s1.errors.len(),
            s2.bases.as_mut_ptr(),
            s2.bases.len(),
            s2.quals.as_mut_ptr(),
            s2.quals.len(),
            s2.depths.as_mut_ptr(),
            s2.depths.len(),
            s2.errors.as_mut_ptr(),
            s2.errors.len(),
            listed.as_mut_ptr(),
            listed.len(),
            reasons.as_mut_ptr(),
            reasons.len(),
            marks.as_mut_ptr(),
            marks.len(),
        )
    };
    let sys::FamilyAnswer { ending, listed, ledger } = answer;
    FamilyAnswer { ending: ending.into(), listed: listed as usize, ledger }
}

impl From<sys::FamilyEnding> for Ending {
    fn from(ending: sys::FamilyEnding) -> Self {
        let sys::FamilyEnding { kind, number, with, length } = ending;
        match (kind, Reason::numbered(number as u8)) {
            (0, _) => Ending::Called { length: length as usize },
            (1, _) => Ending::Empty,
            (2, _) => Ending::NoStrand,
            (3, Some(reason)) => Ending::Rejected(reason),
            // By the contract this is kind 4.
            _ => Ending::Refused(Refusal { number, with }),
        }
    }
}
