//! The samples' sheet: its text, its refusals, and the buffers that it goes into.

use crate::family_call::{asked_in, f1, refused};
use codec_host::text::Columns;
use codec_host::text::family::{Books, Call};
use codec_host::{Ending, Ledger, Reason, Refusal, SHEET_ROOM, Samples, sheet};

const NAMES: &str = "SAMPLE FAMILIES RECORDS FILTERED CALLED BASES DUPLEX DIFFER PPM\n";
const MOST: u64 = 1 << 41;

/// The sheet in so many bytes of room, with canaries on both sides: whatever is not its text must be as it was.
fn written(samples: &Samples, room: usize) -> Result<String, u32> {
    const CANARIES: usize = 64;
    let before: Vec<u8> = (0..room + 2 * CANARIES).map(|at| (at * 7 + at / 251) as u8).collect();
    let mut bytes = before.clone();
    let answer = sheet(samples, &mut bytes[CANARIES..CANARIES + room]);
    let length = answer.unwrap_or(0);
    let text = bytes[CANARIES..CANARIES + length].to_vec();
    bytes[CANARIES..CANARIES + length].copy_from_slice(&before[CANARIES..CANARIES + length]);
    assert!(bytes == before, "written beyond {answer:?}");
    match answer {
        Ok(_) => Ok(String::from_utf8(text).expect("plain letters and figures")),
        Err(Refusal { number, with }) => {
            assert_eq!(with, 0);
            Err(number)
        }
    }
}

fn text(samples: &Samples) -> String {
    written(samples, SHEET_ROOM).expect("no refusal")
}

fn with(sample: u32, ledger: Ledger) -> Samples {
    let mut samples = Samples::new();
    samples.replace(sample, ledger);
    samples
}

/// F1 with these strands of quality 30 and depth 3, for this sample.
fn f1_of(bases: [&[u8; 10]; 2], sample: u32) -> Call {
    let strand = |bases: &[u8; 10]| Columns {
        bases: bases.to_vec(),
        quals: vec![30; 10],
        depths: vec![3; 10],
        errors: vec![0; 10],
    };
    Call { strands: bases.map(|bases| Some(strand(bases))), sample: Some(sample), ..f1() }
}

/// Two samples, a rejected family, and two refused ones that leave no trace.
fn a_run() -> Samples {
    const TEN: [u8; 10] = [b'A'; 10];
    const TURNED: [u8; 10] = [b'T'; 10];
    let one = |sample| f1_of([b"AAAAAAAAAC", &TURNED], sample);
    let same = f1_of([&TEN, &TURNED], 95);
    let mut short = same.clone();
    short.options.min_duplex_length = 6;
    let mut far = one(3);
    far.options.min_duplex_length = 1 << 31;
    let mut books = Books::default();
    for (call, ending) in [
        (one(3), Ending::Called { length: 15 }),
        (same, Ending::Called { length: 15 }),
        (short, Ending::Rejected(Reason::InsufficientOverlap)),
        (one(96), refused(20, 0)),
        (far, refused(1, 0)),
    ] {
        books.open(&call);
        assert_eq!(asked_in(&mut books, &call).0.ending, ending);
    }
    books.samples
}

#[test]
fn two_samples_have_two_lines() {
    let sheet = text(&a_run());
    assert_eq!(sheet, format!("{NAMES}3 1 2 0 1 15 5 1 200000\n95 2 4 2 1 15 5 0 0\n"));
    assert_eq!(sheet.len(), 108);
}

#[test]
fn a_fresh_sheet_is_the_names_alone() {
    assert_eq!(text(&Samples::new()), NAMES);
    assert_eq!(NAMES.len(), 64);
}

#[test]
fn a_line_is_for_a_sample_with_a_family() {
    let records = Ledger { families: 0, ..Ledger::from([9; 20]) };
    assert_eq!(text(&with(5, records)), NAMES);
    let all = Samples::from(std::array::from_fn(|at| u64::from(at % 20 == 0)));
    let lines: String = (0..96).map(|sample| format!("{sample} 1 0 0 0 0 0 0 0\n")).collect();
    assert_eq!(text(&all), format!("{NAMES}{lines}"));
}

#[test]
fn figures_are_the_ledgers() {
    let ledger = Ledger {
        families: 10,
        records: 20,
        reasons: [1, 2, 4, 8, 16, 32, 64, 128, 256, 512],
        passed_over: 3,
        no_strand: 5,
        used: 7,
        disagreement_rejected: 11,
        duplexes: 13,
        bases: 17,
        duplex_bases: 3,
        disagreements: 2,
    };
    assert_eq!(text(&with(0, ledger)), format!("{NAMES}0 10 20 1023 13 17 3 2 666666\n"));
}

/// All 96 ledgers at their limits with one duplex base: the longest text that there is.
#[test]
fn the_longest_sheet() {
    let full = Ledger { families: 1 << 28, duplex_bases: 1, ..Ledger::from([MOST; 20]) };
    let counts = full.counts();
    let samples = Samples::from(std::array::from_fn(|at| counts[at % 20]));
    let sheet = text(&samples);
    assert_eq!(sheet.len(), 10_230);
    let figures = format!("268435456 {MOST} {} {MOST} {MOST} 1 {MOST} {MOST}000000", 10 * MOST);
    let lines: String = (0..96).map(|sample| format!("{sample} {figures}\n")).collect();
    assert_eq!(sheet, format!("{NAMES}{lines}"));
}

#[test]
fn refusal_21_a_short_buffer() {
    for samples in [Samples::new(), a_run()] {
        let expected = text(&samples);
        for room in [0, 63, 64, 108, 16_383] {
            assert_eq!(written(&samples, room), Err(21), "{room}");
        }
        for room in [16_384, 16_385, 16_390] {
            assert_eq!(written(&samples, room).as_ref(), Ok(&expected), "{room}");
        }
    }
}

#[test]
fn refusal_10_of_any_sample() {
    for sample in [0, 47, 95] {
        let families = |families| with(sample, Ledger { families, ..Ledger::default() });
        assert!(written(&families(1 << 28), SHEET_ROOM).is_ok());
        assert_eq!(written(&families((1 << 28) + 1), SHEET_ROOM), Err(10));
        for count in 1..20 {
            let counted = |figure| {
                let mut counts = [0; 20];
                counts[count] = figure;
                with(sample, counts.into())
            };
            // No family, no line, but looked at.
            assert_eq!(written(&counted(MOST), SHEET_ROOM).as_deref(), Ok(NAMES));
            for above in [MOST + 1, u64::MAX] {
                assert_eq!(written(&counted(above), SHEET_ROOM), Err(10), "{sample} {count}");
                assert_eq!(written(&counted(above), 0), Err(10), "10 goes before 21");
            }
        }
    }
}

/// A sample with no family but `used` beyond its limit: no refusal for the other samples' calls, 10 for the sheet.
#[test]
fn an_overfull_sample_stops_the_sheet_alone() {
    let used = Ledger { used: MOST + 1, ..Ledger::default() };
    let mut books = Books { samples: with(50, used), ..Books::default() };
    for sample in [0, 49, 51, 95] {
        books.named = Some(sample);
        assert_eq!(asked_in(&mut books, &f1()).0.ending, Ending::Called { length: 15 });
    }
    books.named = Some(50);
    assert_eq!(asked_in(&mut books, &f1()).0.ending, refused(10, 0));
    assert_eq!(written(&books.samples, SHEET_ROOM), Err(10));
    books.samples.replace(50, Ledger::default());
    assert_eq!(text(&books.samples).lines().count(), 5);
}
