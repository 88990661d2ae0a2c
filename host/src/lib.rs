//! The proved calls of a CODEC duplex caller, from Rust: a whole family, the sheet of a run's samples, selection alone, the combining
//! step, the turns of eight lanes, both conversions of CIGARs, and the check of a partner's table.
//!
//! [`family`] stands in the place of the original's `consensus_reads_raw`: records and strands in, the duplex, the rejected
//! records and the run's next [`Ledger`] out. Each call names one of 96 samples, for which it is counted too. It takes all room
//! from the caller, allocates nothing and does not panic.
//!
//! ```
//! use codec_host::{Ending, Ledger, Options, Record, Room, Samples, Strand, family};
//!
//! let r1 = Record { flags: 65, verdict: true, clipped: 4, position: 100, count: 1, ..Record::default() };
//! let r2 = Record { flags: 145, position: 102, ..r1 };
//! let alone = Record { flags: 0, ..r1 };
//! let strand = Strand { bases: b"ACGT", quals: &[30; 4], depths: &[2; 4], errors: &[0; 4] };
//! let mut samples = Samples::new();
//! let mut room = Room::new();
//! let answer = family(
//!     &[r1, alone, r2],
//!     &[4 * 16],
//!     &Options::default(),
//!     Some(strand),
//!     Some(strand),
//!     Ledger::default(),
//!     95,
//!     &mut samples,
//!     room.lend(),
//! );
//! assert_eq!(answer.ending, Ending::Called { length: 6 });
//! assert_eq!(room.duplex(6).bases, b"ACNNGT");
//! assert_eq!(room.r2(6).bases, b"nnACGT");
//! let rejects: Vec<_> = room.rejects(answer.listed).collect();
//! assert_eq!(rejects, [(1, codec_host::Reason::FragmentRead)]);
//! assert_eq!((answer.ledger.records, answer.ledger.used), (3, 2));
//! assert_eq!(answer.ledger.rates().map(|rates| rates.millionths), Ok(1_000_000));
//! assert_eq!(samples.ledger(95), Some(answer.ledger));
//! assert_eq!(samples.ledger(94), Some(Ledger::default()));
//! ```
//!
//! [`sheet`] writes a line for each sample with a family, as text into a lent buffer:
//!
//! ```
//! use codec_host::{Ledger, SHEET_ROOM, Samples, sheet};
//!
//! let mut samples = Samples::new();
//! let ledger = Ledger { families: 2, records: 4, duplexes: 1, bases: 15, duplex_bases: 5, ..Ledger::default() };
//! samples.replace(3, ledger);
//! let mut buffer = [0; SHEET_ROOM];
//! let length = sheet(&samples, &mut buffer)?;
//! let names = "SAMPLE FAMILIES RECORDS FILTERED CALLED BASES DUPLEX DIFFER PPM\n";
//! assert_eq!(buffer[..length], *format!("{names}3 2 4 0 1 15 5 0 0\n").as_bytes());
//! assert_eq!(sheet(&samples, &mut [0; 100]).map_err(|refusal| refusal.number), Err(21));
//! # Ok::<(), codec_host::Refusal>(())
//! ```
//!
//! Before a family call go [`select`] and the caller's own single-strand consensus, built of the reads that stay:
//!
//! ```
//! use codec_host::{
//!     Ending, Ledger, Marks, Options, Record, Room, Samples, Selection, Strand, family, select,
//! };
//!
//! /// Stands for the single-strand caller.
//! fn consensus_call(_records: &[Record], _side: &Marks) -> Option<Strand<'static>> {
//!     Some(Strand { bases: b"ACGT", quals: &[30; 4], depths: &[2; 4], errors: &[0; 4] })
//! }
//!
//! fn call(families: &[(u32, Vec<Record>, Vec<u32>)], options: &Options) -> (Ledger, Samples) {
//!     let mut ledger = Ledger::default();
//!     let mut samples = Samples::new();
//!     let mut room = Room::new();
//!     for (sample, records, ops) in families {
//!         let [r1, r2] = match select(records, ops, options) {
//!             Selection::Kept { r1, r2, .. } => [r1, r2].map(|side| consensus_call(records, &side)),
//!             _ => [None, None],
//!         };
//!         let answer =
//!             family(records, ops, options, r1, r2, ledger, *sample, &mut samples, room.lend());
//!         ledger = answer.ledger;
//!         if let Ending::Called { length } = answer.ending {
//!             println!("{}", String::from_utf8_lossy(room.duplex(length).bases));
//!         }
//!         for (record, reason) in room.rejects(answer.listed) {
//!             println!("{record} {reason:?}");
//!         }
//!     }
//!     (ledger, samples)
//! }
//! # let r1 = Record { flags: 65, verdict: true, clipped: 4, position: 100, count: 1, ..Record::default() };
//! # let pair = vec![r1, Record { flags: 145, position: 102, ..r1 }];
//! # let (ledger, samples) = call(&[(1, pair, vec![64]), (2, vec![r1], vec![64])], &Options::default());
//! # assert_eq!((ledger.families, ledger.duplexes, ledger.bases), (2, 1, 6));
//! # assert_eq!([0, 1, 2].map(|sample| samples.ledger(sample).unwrap().duplexes), [0, 1, 0]);
//! ```
//!
//! [`combine`] takes depths and errors as `u16`, [`combine_bytes`] as byte pairs, low byte first. Neither panics,
//! whatever the columns hold and however long they are; what does not fit together is [`Answer::Refused`].
//!
//! ```
//! use codec_host::{Answer, Limits, Results, Strand, combine};
//!
//! let a = Strand { bases: b"A", quals: &[30], depths: &[5], errors: &[1] };
//! let b = Strand { bases: b"C", quals: &[20], depths: &[4], errors: &[1] };
//! let (mut bases, mut quals, mut depths, mut errors) = ([0], [0], [0], [0]);
//! let results = Results {
//!     bases: &mut bases,
//!     quals: &mut quals,
//!     depths: &mut depths,
//!     errors: &mut errors,
//! };
//! let answer = combine(a, b, Limits { max_disagreements: 10, max_rate: 1.0 }, results);
//! assert_eq!(answer, Answer::Duplex { bases: 1, disagreements: 1 });
//! assert_eq!((bases, quals, depths, errors), ([b'A'], [10], [9], [4]));
//! ```
//!
//! [`select`] takes the records of a family, all operation words in one slice, and the options.
//!
//! ```
//! use codec_host::{Options, Record, Selection, select};
//!
//! let r1 = Record { flags: 65, verdict: true, clipped: 10, position: 100, count: 1, ..Record::default() };
//! let r2 = Record { flags: 145, position: 105, ..r1 };
//! let Selection::Kept { start, end, length, .. } = select(&[r1, r2], &[160], &Options::default()) else {
//!     panic!("a window of 5 bases is enough");
//! };
//! assert_eq!((start, end, length), (105, 109, 15));
//! ```
//!
//! [`Dispatcher`] says whose family is next where eight lanes feed one caller. A lane that waits is served within eight turns,
//! and a refused family has used its turn.
//!
//! ```
//! use codec_host::{Dispatcher, Turn};
//!
//! let mut dispatcher = Dispatcher::default();
//! for lane in [3, 3, 0, 7] {
//!     dispatcher.add(lane)?;
//! }
//! let mut served = Vec::new();
//! while let Turn::Lane(lane) = dispatcher.turn()? {
//!     served.push(lane);
//! }
//! assert_eq!(served, [0, 3, 7, 3]);
//! assert_eq!(dispatcher.last, 3);
//! assert_eq!(dispatcher.add(8).map_err(|refusal| refusal.number), Err(22));
//! # Ok::<(), codec_host::Refusal>(())
//! ```
//!
//! [`extend_cigar`] and [`flatten_cigar`] go from a partner that sends M to one that sends = and X, and back.
//!
//! ```
//! use codec_host::{CIGAR_ROOM, extend_cigar, flatten_cigar};
//!
//! let [m, i, d, equal, x] = [0, 1, 2, 7, 8];
//! let word = |length: u32, code: u32| length * 16 + code;
//! // 5M3I2D4M
//! let plain = [word(5, m), word(3, i), word(2, d), word(4, m)];
//! let mut extended = [0; CIGAR_ROOM];
//! let count = extend_cigar(&plain, b"AAAAACCCGGGG", b"AAAATTTGGGC", &mut extended)?;
//! let [a, b, c] = [word(4, equal), word(1, x), word(3, equal)];
//! assert_eq!(extended[..count], [a, b, word(3, i), word(2, d), c, b]);
//! let mut back = [0; CIGAR_ROOM];
//! let count = flatten_cigar(&extended[..count], &mut back)?;
//! assert_eq!(back[..count], plain);
//! assert_eq!(extend_cigar(&[a], b"AAAA", b"AAAA", &mut back).map_err(|refusal| refusal.number), Err(24));
//! # Ok::<(), codec_host::Refusal>(())
//! ```
//!
//! [`check_table`] says whether a partner's output table is what the position rules give for our input table.
//!
//! ```
//! use codec_host::{Check, Table, check_table};
//!
//! let ours = b"BA QA DA EA BB QB DB EB\nA 30 5 1 C 20 4 1\n";
//! assert_eq!(check_table(ours, b"BASE QUAL DEPTH ERR\nA 10 9 4\n"), Check::Accepted);
//! assert_eq!(check_table(ours, b"BASE QUAL DEPTH ERR\nA 10 8 4\n"), Check::Wrong { line: 2, field: 3 });
//! assert_eq!(check_table(ours, b"BASE QUAL DEPTH ERR\n"), Check::UnequalLines);
//! assert_eq!(check_table(ours, ours), Check::Malformed { table: Table::Theirs, line: 1 });
//! ```

mod cigar;
mod dispatch;
mod family;
mod partner;
mod room;
mod samples;
mod select;
mod sys;
pub mod text;

pub use cigar::{CIGAR_ROOM, extend_cigar, flatten_cigar};
pub use dispatch::{Dispatcher, LANES, Turn};
pub use family::{
    Ending, FamilyAnswer, LIST_PLACES, Ledger, Lent, MARK_WORDS, Rates, Reason, Refusal, family,
};
pub use partner::{Check, Table, check_table};
pub use room::Room;
pub use samples::{SAMPLES, SHEET_ROOM, Samples, sheet};
pub use select::{MAX_RECORDS, Marks, Options, Record, Selection, select};

// The exported call wants the low byte first, as `u16` lies in memory on the only machine the library is made for.
#[cfg(not(target_endian = "little"))]
compile_error!("a column of u16 cannot be lent as byte pairs here");

/// Most positions of a column.
pub const MAX_POSITIONS: usize = 2_048;

/// The columns of one strand; `W` is `u16`, or `u8` where depths and errors are byte pairs.
#[derive(Clone, Copy, Debug)]
pub struct Strand<'a, W = u16> {
    pub bases: &'a [u8],
    pub quals: &'a [u8],
    pub depths: &'a [W],
    pub errors: &'a [W],
}

/// Where the duplex goes: into the first places, the rest stays as it is.
#[derive(Debug)]
pub struct Results<'a, W = u16> {
    pub bases: &'a mut [u8],
    pub quals: &'a mut [u8],
    pub depths: &'a mut [W],
    pub errors: &'a mut [W],
}

/// A duplex with more disagreements, or with a rate of them above this, is rejected; NaN rejects none.
#[derive(Clone, Copy, Debug)]
pub struct Limits {
    pub max_disagreements: u64,
    pub max_rate: f64,
}

impl Limits {
    /// Rejects nothing.
    pub const NONE: Limits = Limits { max_disagreements: u64::MAX, max_rate: f64::NAN };
}

/// Only `Duplex` writes into the results.
#[derive(Clone, Copy, Debug, PartialEq)]
pub enum Answer {
    /// The positions that both strands call, and how many of them differ.
    Duplex { bases: u32, disagreements: u32 },
    /// The disagreements above the count limit.
    DisagreementCount(u32),
    /// The rate above the rate limit.
    DisagreementRate(f64),
    /// The number of document 01's table, and what goes with it.
    Refused { number: u32, with: u32 },
}

/// The duplex of two strands of equal length, each position from the same position of both.
pub fn combine(a: Strand<'_>, b: Strand<'_>, limits: Limits, results: Results<'_>) -> Answer {
    combine_bytes(a.into_bytes(), b.into_bytes(), limits, results.into_bytes())
}

/// The same with depths and errors as byte pairs, low byte first.
pub fn combine_bytes(
    a: Strand<'_, u8>,
    b: Strand<'_, u8>,
    limits: Limits,
    results: Results<'_, u8>,
) -> Answer {
    // SAFETY: every pointer goes with its own slice's length, and `&mut` keeps the results apart.
    let answer = unsafe {
        sys::codec_ffi_combine(
            a.bases.as_ptr(),
            a.bases.len(),
            a.quals.as_ptr(),
            a.quals.len(),
            a.depths.as_ptr(),
            a.depths.len(),
            a.errors.as_ptr(),
            a.errors.len(),
            b.bases.as_ptr(),
            b.bases.len(),
            b.quals.as_ptr(),
            b.quals.len(),
            b.depths.as_ptr(),
            b.depths.len(),
            b.errors.as_ptr(),
            b.errors.len(),
            limits.max_disagreements,
            limits.max_rate,
            results.bases.as_mut_ptr(),
            results.bases.len(),
            results.quals.as_mut_ptr(),
            results.quals.len(),
            results.depths.as_mut_ptr(),
            results.depths.len(),
            results.errors.as_mut_ptr(),
            results.errors.len(),
        )
    };
    match answer.kind {
        0 => Answer::Duplex { bases: answer.bases, disagreements: answer.disagreements },
        1 => Answer::DisagreementCount(answer.disagreements),
        2 => Answer::DisagreementRate(answer.rate),
        3 => Answer::Refused { number: answer.refusal, with: answer.with },
        kind => unreachable!("the contract has kinds 0 to 3, this is {kind}"),
    }
}

impl<'a> Strand<'a> {
    /// What an absent strand lends.
    const NONE: Strand<'static> = Strand { bases: &[], quals: &[], depths: &[], errors: &[] };

    fn into_bytes(self) -> Strand<'a, u8> {
        Strand {
            bases: self.bases,
            quals: self.quals,
            depths: pairs(self.depths),
            errors: pairs(self.errors),
        }
    }
}

impl<'a> Results<'a> {
    fn into_bytes(self) -> Results<'a, u8> {
        Results {
            bases: self.bases,
            quals: self.quals,
            depths: pairs_mut(self.depths),
            errors: pairs_mut(self.errors),
        }
    }
}

fn pairs(words: &[u16]) -> &[u8] {
    // SAFETY: the same memory for the same time; a byte needs no alignment.
    unsafe { std::slice::from_raw_parts(words.as_ptr().cast(), size_of_val(words)) }
}

fn pairs_mut(words: &mut [u16]) -> &mut [u8] {
    // SAFETY: as in `pairs`, and any two bytes are a `u16`.
    unsafe { std::slice::from_raw_parts_mut(words.as_mut_ptr().cast(), size_of_val(words)) }
}
