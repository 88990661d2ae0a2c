//! Family calls into room of any size, with all of it looked at after each.

use codec_host::text::Columns;
use codec_host::text::family::{Books, Buffers, Call};
use codec_host::{Ending, FamilyAnswer, Ledger, Options, Record, Refusal};

pub const R1: u16 = 1 + 64;
pub const R2: u16 = 1 + 128;
pub const REVERSE: u16 = 16;
/// 10M
pub const OPS: [u32; 1] = [160];

pub fn record(flags: u16, name: u32, position: u32) -> Record {
    let rank = -(name as i32);
    Record { flags, name, verdict: true, rank, clipped: 10, position, start: 0, count: 1 }
}

/// So many positions, no two of them alike in quality up to 60.
pub fn strand(length: usize) -> Columns {
    Columns {
        bases: b"ACGT".iter().copied().cycle().take(length).collect(),
        quals: (0..length).map(|place| 30 + (place % 60) as u8).collect(),
        depths: (0..length).map(|place| 3 + (place % 7) as u16).collect(),
        errors: (0..length).map(|place| (place % 3) as u16).collect(),
    }
}

/// F1 with so many names: R1 forward 10M at 100, R2 reverse 10M at 105, strands of 10.
pub fn pairs(names: u32) -> Call {
    let pair = |name| [record(R1, name, 100), record(R2 + REVERSE, name, 105)];
    Call {
        ledger: None,
        sample: None,
        sample_ledgers: Vec::new(),
        records: (0..names).flat_map(pair).collect(),
        ops: OPS.to_vec(),
        options: Options { outer_bases_length: 0, ..Options::default() },
        strands: [Some(strand(10)), Some(strand(10))],
        places: [2_048, 512, 8],
    }
}

pub fn f1() -> Call {
    pairs(1)
}

/// F2: the starts exchanged, so that the true window is the whole of both reads' five common bases.
pub fn f2() -> Call {
    let mut call = f1();
    (call.records[0].position, call.records[1].position) = (105, 100);
    call
}

/// The answer behind this ledger; outside the answer every place must be what it was.
pub fn after(ledger: Ledger, call: &Call) -> (FamilyAnswer, Buffers) {
    asked_in(&mut Books { ledger, named: Some(17), ..Books::default() }, call)
}

/// The answer in these books, which go on; the sample must gain what the run gains, and nothing else may change.
pub fn asked_in(books: &mut Books, call: &Call) -> (FamilyAnswer, Buffers) {
    let before = call.buffers(0x5a);
    let mut buffers = before.clone();
    let given = books.clone();
    let answer = call.ask(books, &mut buffers);
    let mut rest = buffers.clone();
    rest.restore(&before, &answer);
    assert!(rest == before, "written beyond the answer {answer:?}");
    if matches!(answer.ending, Ending::Refused(_)) {
        assert_eq!((answer.listed, &*books), (0, &given));
        return (answer, buffers);
    }
    let mut samples = given.samples;
    let mut own = samples.ledger(given.named.unwrap_or(0)).expect("a sample of the run").counts();
    let gains = answer.ledger.counts().into_iter().zip(given.ledger.counts());
    own.iter_mut().zip(gains).for_each(|(count, (after, before))| *count += after - before);
    samples.replace(given.named.unwrap_or(0), own.into());
    assert_eq!((books.ledger, &books.samples), (answer.ledger, &samples));
    (answer, buffers)
}

pub fn asked(call: &Call) -> (FamilyAnswer, Buffers) {
    after(Ledger::default(), call)
}

pub fn ending(call: &Call) -> Ending {
    asked(call).0.ending
}

pub fn refused(number: u32, with: u64) -> Ending {
    Ending::Refused(Refusal { number, with })
}

pub fn is_refused(ending: Ending) -> bool {
    matches!(ending, Ending::Refused(_))
}
