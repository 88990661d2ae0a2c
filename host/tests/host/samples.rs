//! A family call names its sample: the numbers, the order of the refusals, and whose ledger is looked at.

use crate::family_call::{asked_in, f1, is_refused, refused};
use codec_host::text::family::{Books, Call, answered, read};
use codec_host::{Ending, Ledger, SAMPLES, Samples};

/// Books in which no two counts are alike, with this sample named.
fn filled(sample: u32) -> Books {
    let counts = std::array::from_fn(|at| 1_000 + at as u64);
    Books { ledger: Ledger::default(), samples: Samples::from(counts), named: Some(sample) }
}

fn with_families(families: u64) -> Ledger {
    Ledger { families, ..Ledger::default() }
}

/// The ending with these ledgers of the run and of sample 40, all others fresh.
fn ending(run: Ledger, own: Ledger) -> Ending {
    let mut books = Books { ledger: run, named: Some(40), ..Books::default() };
    books.samples.replace(40, own);
    asked_in(&mut books, &f1()).0.ending
}

fn beyond_one() -> Call {
    let mut call = f1();
    call.options.min_duplex_length = 1 << 31;
    call
}

#[test]
fn fresh_samples_have_fresh_ledgers() {
    let samples = Samples::new();
    assert_eq!(samples, Samples::default());
    assert_eq!(samples.counts(), &[0; 1_920]);
    for sample in 0..SAMPLES as u32 {
        assert_eq!(samples.ledger(sample), Some(Ledger::default()));
    }
    assert_eq!(size_of::<Samples>(), SAMPLES * size_of::<Ledger>());
}

#[test]
fn a_ledger_is_read_and_replaced_by_number() {
    let mut samples = filled(0).samples;
    for sample in [0, 1, 94, 95] {
        let counts = std::array::from_fn(|at| 1_000 + 20 * u64::from(sample) + at as u64);
        assert_eq!(samples.ledger(sample), Some(Ledger::from(counts)));
    }
    let mut expected = *samples.counts();
    expected[20 * 95..].fill(7);
    let before = samples.ledger(95);
    assert_eq!(samples.replace(95, Ledger::from([7; 20])), before);
    assert_eq!(samples.counts(), &expected);
    for above in [96, 97, u32::MAX] {
        assert_eq!(samples.ledger(above), None);
        assert_eq!(samples.replace(above, Ledger::default()), None);
    }
    assert_eq!(samples.counts(), &expected);
}

/// What the call must add and leave alone is held by `asked_in`.
#[test]
fn each_sample_gains_what_the_run_gains() {
    for sample in 0..SAMPLES as u32 {
        let ending = asked_in(&mut filled(sample), &f1()).0.ending;
        assert_eq!(ending, Ending::Called { length: 15 }, "{sample}");
    }
}

#[test]
fn refusal_20_a_sample_above_95() {
    assert!(!is_refused(asked_in(&mut filled(95), &f1()).0.ending));
    for above in [96, 97, 128, 1 << 16, 1 << 31, u32::MAX] {
        assert_eq!(asked_in(&mut filled(above), &f1()).0.ending, refused(20, 0), "{above}");
    }
}

#[test]
fn refusal_20_goes_before_all_others() {
    let mut all = beyond_one();
    all.records.resize(600, all.records[0]);
    all.records.iter_mut().for_each(|record| record.position = 0);
    all.strands.iter_mut().flatten().for_each(|strand| strand.bases[0] = b'?');
    all.places = [0; 3];
    for call in [beyond_one(), all] {
        let mut books = Books { ledger: with_families(u64::MAX), ..filled(96) };
        assert_eq!(asked_in(&mut books, &call).0.ending, refused(20, 0));
        books.named = Some(95);
        assert_eq!(asked_in(&mut books, &call).0.ending, refused(1, 0));
    }
}

#[test]
fn refusals_10_and_11_of_the_run_and_of_the_sample() {
    const FULL: u64 = 1 << 28;
    let [fresh, last, full, over] = [0, FULL - 1, FULL, FULL + 1].map(with_families);
    for (run, own, number) in [
        (last, last, 0),
        (full, fresh, 11),
        (fresh, full, 11),
        (full, full, 11),
        (over, fresh, 10),
        (fresh, over, 10),
        // The telling case: the sample's number goes before the run's ledger.
        (full, over, 10),
        (over, full, 10),
        (over, over, 10),
    ] {
        let expected = if number == 0 { Ending::Called { length: 15 } } else { refused(number, 0) };
        assert_eq!(ending(run, own), expected, "{} {}", run.families, own.families);
    }
    for count in 1..20 {
        let with = |figure| {
            let mut counts = [0; 20];
            counts[count] = figure;
            Ledger::from(counts)
        };
        assert!(!is_refused(ending(fresh, with(1 << 41))), "{count}");
        for above in [(1 << 41) + 1, u64::MAX] {
            assert_eq!(ending(fresh, with(above)), refused(10, 0), "{count}");
            assert_eq!(ending(full, with(above)), refused(10, 0), "{count}");
        }
    }
}

#[test]
fn refusals_1_to_9_go_before_the_samples_ledger() {
    for own in [1 << 28, u64::MAX].map(with_families) {
        let mut books = Books { named: Some(40), ..Books::default() };
        books.samples.replace(40, own);
        assert_eq!(asked_in(&mut books, &beyond_one()).0.ending, refused(1, 0));
        let short = Call { places: [2_047, 512, 8], ..f1() };
        assert_eq!(asked_in(&mut books, &short).0.ending, refused(9, 0));
    }
}

#[test]
fn no_other_sample_is_looked_at() {
    for sample in [0, 1, 40, 94, 95] {
        let mut books = Books { named: Some(sample), ..Books::default() };
        books.samples = Samples::from([u64::MAX; 1_920]);
        books.samples.replace(sample, Ledger::default());
        let (answer, _) = asked_in(&mut books, &f1());
        assert_eq!(answer.ending, Ending::Called { length: 15 }, "{sample}");
        assert_eq!(books.samples.ledger(sample), Some(answer.ledger));
    }
}

/// A text in which samples are named: from then on each answer ends in the sample's ledger, but for one that there is not.
#[test]
fn the_text_names_samples() {
    let call = f1();
    let own = Ledger::from([5; 20]);
    let named = |sample| Call { sample: Some(sample), ..f1() };
    let set = Call { sample_ledgers: vec![(95, own)], ..named(95) };
    let calls = [call.clone(), named(0), set, call, named(96)];
    let text: String = calls.iter().map(Call::to_string).collect();
    let again = read(&text).expect("the form");
    assert_eq!(again.iter().map(Call::to_string).collect::<String>(), text);
    let mut books = Books::default();
    let last = |call| {
        let answer = answered(call, &mut books).expect("nothing beyond the answer");
        answer.lines().last().expect("some").to_string()
    };
    let ends: Vec<String> = again.iter().map(last).collect();
    let begins = |at: usize, with: &str| assert!(ends[at].starts_with(with), "{}", ends[at]);
    begins(0, "T 1 2 ");
    begins(1, "TS 0 2 4 ");
    begins(2, "TS 95 6 7 5 ");
    begins(3, "TS 95 7 9 5 ");
    begins(4, "T 4 8 ");
}

#[test]
fn a_wrong_sample_line_is_named() {
    let twenty = " 0".repeat(20);
    for (line, good) in [
        (format!("GS 95{twenty}"), true),
        (format!("GS 96{twenty}"), false),
        (format!("GS 0 0{twenty}"), false),
        (format!("GS{twenty}"), false),
        ("N 4294967295".to_string(), true),
        ("N 4294967296".to_string(), false),
        ("N".to_string(), false),
        ("N 1 2".to_string(), false),
    ] {
        let read = read(&format!("{line}\n{}", f1()));
        assert_eq!(read.is_ok(), good, "{line}");
        assert!(read.err().is_none_or(|error| error.starts_with("line 1: ")), "{line}");
    }
}
