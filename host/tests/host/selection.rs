//! Selection alone: case F1, the numbers of records at the edges, each kind of answer, the layout at the boundary.

use codec_host::{MAX_RECORDS, Marks, Options, Record, Selection, select};

const FORWARD: u16 = 65;
const REVERSE: u16 = 145;
/// 10M
const OPS: [u32; 1] = [160];

/// R1 forward 10M at 100, R2 reverse 10M at 105, of so many names.
fn pairs(names: u32) -> Vec<Record> {
    let record = |flags: u16, name: u32, position: u32| Record {
        flags,
        name,
        verdict: true,
        rank: -(name as i32),
        clipped: 10,
        position,
        start: 0,
        count: 1,
    };
    (0..names).flat_map(|name| [record(FORWARD, name, 100), record(REVERSE, name, 105)]).collect()
}

/// Every other one of so many records, from the first one on.
fn every_other(first: usize, records: usize) -> Marks {
    let mut marks = [0; 8];
    (first..records).step_by(2).for_each(|record| marks[record / 64] |= 1 << (record % 64));
    marks
}

fn kept(r1: Marks, r2: Marks) -> Selection {
    let (r1_is_negative, r2_is_negative) = (false, true);
    Selection::Kept { start: 105, end: 109, length: 15, r1_is_negative, r2_is_negative, r1, r2 }
}

fn with_minimum(min_duplex_length: u64) -> Options {
    Options { min_duplex_length, ..Options::default() }
}

const TOO_MANY: Selection = Selection::Refused { number: 2, with: 0 };

#[test]
fn f1_has_a_window_of_five() {
    let both = kept(every_other(0, 2), every_other(1, 2));
    assert_eq!(select(&pairs(1), &OPS, &with_minimum(5)), both);
    assert_eq!(select(&pairs(1), &OPS, &with_minimum(6)), Selection::Rejected(6));
}

#[test]
fn exchanged_records_are_the_other_side() {
    let mut records = pairs(1);
    (records[0].flags, records[1].flags) = (129, 81);
    let answer = select(&records, &OPS, &Options::default());
    let Selection::Kept { r1_is_negative, r2_is_negative, r1, r2, .. } = answer else {
        panic!("{answer:?}");
    };
    assert_eq!((r1_is_negative, r2_is_negative), (true, false));
    assert_eq!((r1, r2), (every_other(1, 2), every_other(0, 2)));
}

#[test]
fn so_few_records_that_none_enters() {
    assert_eq!(select(&[], &[], &Options::default()), Selection::Empty);
    assert_eq!(select(&pairs(1)[..1], &OPS, &Options::default()), Selection::Empty);
}

#[test]
fn as_many_records_as_the_table_takes() {
    for names in [1, 2, 31, 32, 33, 255, 256] {
        let records = pairs(names);
        let both = kept(every_other(0, records.len()), every_other(1, records.len()));
        assert_eq!(select(&records, &OPS, &Options::default()), both, "{names}");
    }
}

#[test]
fn more_records_are_refused_whatever_they_hold() {
    let mut records = pairs(500);
    assert_eq!(records[..MAX_RECORDS].len(), 512);
    for count in [513, 514, 1_000] {
        assert_eq!(select(&records[..count], &OPS, &Options::default()), TOO_MANY);
    }
    records.iter_mut().for_each(|record| record.count = u32::MAX);
    assert_eq!(select(&records, &OPS, &Options::default()), TOO_MANY);
    let long = with_minimum(1 << 31);
    assert_eq!(select(&records, &OPS, &long), Selection::Refused { number: 1, with: 0 });
}

#[test]
fn more_words_are_refused() {
    let words = vec![160; 8_193];
    assert_eq!(select(&pairs(1), &words, &Options::default()), TOO_MANY);
    let enough = &words[..8_192];
    assert_eq!(
        select(&pairs(1), enough, &Options::default()),
        select(&pairs(1), &OPS, &Options::default())
    );
}

#[test]
fn a_refusal_names_its_record() {
    let refused = |record: Record, number: u32| {
        let mut records = pairs(3);
        records[4] = Record { flags: FORWARD, name: 2, verdict: true, ..record };
        let answer = select(&records, &OPS, &Options::default());
        assert_eq!(answer, Selection::Refused { number, with: 4 });
    };
    let good = pairs(1)[0];
    refused(Record { start: 1, ..good }, 3);
    refused(Record { start: u32::MAX, count: u32::MAX, ..good }, 3);
    refused(Record { clipped: 9, ..good }, 5);
    refused(Record { position: 0, ..good }, 6);
}

#[test]
fn the_cap_keeps_the_lowest_ranks() {
    let capped = |cap| Options { max_reads_per_strand: Some(cap), ..Options::default() };
    let last_pair = kept([1 << 4, 0, 0, 0, 0, 0, 0, 0], [1 << 5, 0, 0, 0, 0, 0, 0, 0]);
    assert_eq!(select(&pairs(3), &OPS, &capped(1)), last_pair);
    assert_eq!(select(&pairs(3), &OPS, &capped(0)), Selection::Rejected(3));
    let all = kept(every_other(0, 6), every_other(1, 6));
    assert_eq!(select(&pairs(3), &OPS, &capped(1 << 32)), all);
}

#[test]
fn every_option_of_selection_crosses_the_boundary() {
    let few = Options { min_reads_per_strand: 4, ..Options::default() };
    assert_eq!(select(&pairs(3), &OPS, &few), Selection::Rejected(3));
    let exact = Options { min_reads_per_strand: 3, ..Options::default() };
    assert_eq!(select(&pairs(3), &OPS, &exact), kept(every_other(0, 6), every_other(1, 6)));
    // F2: with the starts exchanged the legacy window is none of the true one's.
    let mut records = pairs(1);
    (records[0].position, records[1].position) = (105, 100);
    let legacy = Options { legacy_overlap_window: true, ..Options::default() };
    assert_eq!(select(&records, &OPS, &legacy), Selection::Rejected(8));
}
