//! A family call: F1 and F2, each ending with its list, marks and counts, each turn of the two sides.

use crate::family_call::{R1, R2, REVERSE, after, asked, ending, f1, f2, pairs, record, strand};
use Ending::{Called, Empty, NoStrand, Rejected};
use codec_host::text::Columns;
use codec_host::text::family::Call;
use codec_host::{Ending, Ledger, MAX_RECORDS, Options, Reason, Room, Samples, Strand, family};

/// The list, and the marked records.
fn rejects(call: &Call) -> (Vec<(u32, u8)>, Vec<usize>) {
    let (answer, buffers) = asked(call);
    let marked = |record: &usize| buffers.marks[record / 64] >> (record % 64) & 1 == 1;
    (buffers.list(answer.listed), (0..512).filter(marked).collect())
}

fn all(records: usize, reason: Reason) -> (Vec<(u32, u8)>, Vec<usize>) {
    ((0..records as u32).map(|record| (record, reason as u8)).collect(), (0..records).collect())
}

fn rejected_whole(call: &Call, reason: Reason) {
    assert_eq!(ending(call), Rejected(reason));
    assert_eq!(rejects(call), all(call.records.len(), reason));
    let ledger = asked(call).0.ledger;
    assert_eq!(ledger.rejected(reason), call.records.len() as u64);
    assert_eq!((ledger.families, ledger.duplexes, ledger.bases), (1, 0, 0));
}

#[test]
fn f1_is_called_at_minimum_five_and_not_at_six() {
    let mut call = f1();
    call.options.min_duplex_length = 5;
    assert_eq!(ending(&call), Called { length: 15 });
    assert_eq!(rejects(&call), (vec![], vec![]));
    call.options.min_duplex_length = 6;
    rejected_whole(&call, Reason::InsufficientOverlap);
}

#[test]
fn f2_is_too_short_for_its_strands() {
    let mut call = f2();
    rejected_whole(&call, Reason::ClipOverlapFailed);
    call.options.legacy_overlap_window = true;
    rejected_whole(&call, Reason::Dovetail);
    call.options.legacy_overlap_window = false;
    for (lengths, called) in [([5, 5], true), ([6, 5], false), ([5, 6], false), ([0, 0], true)] {
        call.strands = lengths.map(|length| Some(strand(length)));
        let expected =
            if called { Called { length: 5 } } else { Rejected(Reason::ClipOverlapFailed) };
        assert_eq!(ending(&call), expected, "{lengths:?}");
    }
}

#[test]
fn a_family_without_entered_records_is_empty() {
    let mut call = f1();
    call.records.clear();
    assert_eq!(ending(&call), Empty);
    assert_eq!(asked(&call).0.ledger, Ledger { families: 1, ..Ledger::default() });
    call.records = vec![record(0, 0, 100), record(R1, 1, 100), record(R1 + 256, 2, 100)];
    assert_eq!(ending(&call), Empty);
    assert_eq!(rejects(&call), (vec![(0, 1), (1, 2)], vec![0, 1]));
    let ledger = asked(&call).0.ledger;
    assert_eq!((ledger.passed_over, ledger.used, ledger.records), (1, 0, 3));
}

#[test]
fn a_strand_may_be_absent() {
    for present in [[false, false], [true, false], [false, true]] {
        let mut call = pairs(3);
        call.strands = present.map(|is| is.then(|| strand(10)));
        assert_eq!(ending(&call), NoStrand);
        assert_eq!(rejects(&call), (vec![], vec![]));
        let ledger = asked(&call).0.ledger;
        assert_eq!((ledger.no_strand, ledger.used, ledger.duplexes), (6, 0, 0));
    }
}

#[test]
fn too_few_reads_reject_the_family() {
    let mut call = pairs(3);
    call.options.min_reads_per_strand = 3;
    assert_eq!(ending(&call), Called { length: 15 });
    call.options.min_reads_per_strand = 4;
    rejected_whole(&call, Reason::InsufficientReads);
    call.options.min_reads_per_strand = 1;
    call.options.max_reads_per_strand = Some(0);
    rejected_whole(&call, Reason::InsufficientReads);
}

#[test]
fn strands_out_of_phase_reject_the_family() {
    let mut call = f1();
    // 7M 1I 2M: the two reads differ in phase between 105 and 108.
    call.ops = vec![160, 7 * 16, 16 + 1, 2 * 16];
    (call.records[0].start, call.records[0].count) = (1, 3);
    rejected_whole(&call, Reason::IndelErrorBetweenStrands);
}

#[test]
fn too_many_disagreements_reject_the_family() {
    let mut call = f1();
    // Of the five common positions the first one agrees.
    call.strands[1].as_mut().expect("there").bases[9] = b'G';
    let tallies = asked(&call).0.ledger;
    let [both, unequal] = [tallies.duplex_bases, tallies.disagreements];
    assert!(0 < unequal && unequal < both, "{unequal} of {both}");
    call.options.max_duplex_disagreements = unequal;
    assert_eq!(ending(&call), Called { length: 15 });
    call.options.max_duplex_disagreements = unequal - 1;
    rejected_whole(&call, Reason::HighDuplexDisagreement);
    call.options.max_duplex_disagreements = u64::MAX;
    let rate = unequal as f64 / both as f64;
    call.options.max_duplex_disagreement_rate = rate;
    assert_eq!(ending(&call), Called { length: 15 });
    call.options.max_duplex_disagreement_rate = rate.next_down();
    rejected_whole(&call, Reason::HighDuplexDisagreement);
    let ledger = asked(&call).0.ledger;
    let tallied = (ledger.disagreement_rejected, ledger.duplex_bases, ledger.disagreements);
    assert_eq!(tallied, (1, 0, 0));
}

#[test]
fn single_records_are_rejected_beside_a_duplex() {
    let mut call = pairs(4);
    call.ops.extend([4 * 16, 2 * 16 + 2, 6 * 16]);
    (call.records[2].start, call.records[2].count) = (1, 3);
    call.records.extend([record(0, 9, 1), record(R1, 8, 1), record(R1 + 2048, 0, 1)]);
    call.options.max_reads_per_strand = Some(3);
    assert_eq!(ending(&call), Called { length: 15 });
    // Ranks fall with the names: of R2's four records the first one is in excess.
    assert_eq!(rejects(&call), (vec![(1, 5), (2, 4), (8, 1), (9, 2)], vec![2, 8, 9]));
    let ledger = asked(&call).0.ledger;
    assert_eq!(ledger.reasons, [1, 1, 0, 1, 1, 0, 0, 0, 0, 0]);
    assert_eq!((ledger.passed_over, ledger.used, ledger.records), (1, 6, 11));
}

#[test]
fn marks_and_list_reach_the_last_record() {
    let mut call = pairs(256);
    assert_eq!(call.records.len(), MAX_RECORDS);
    call.options.min_duplex_length = 6;
    rejected_whole(&call, Reason::InsufficientOverlap);
    call.options.min_duplex_length = 5;
    call.options.max_reads_per_strand = Some(1);
    let (list, marked) = rejects(&call);
    assert!(marked.is_empty());
    // The last name has the lowest rank.
    assert_eq!(list, (0..510).map(|record| (record, 5)).collect::<Vec<_>>());
}

fn columns(bases: &[u8], quals: [u8; 6], depths: [u16; 6], errors: [u16; 6]) -> Columns {
    Columns {
        bases: bases.to_vec(),
        quals: quals.to_vec(),
        depths: depths.to_vec(),
        errors: errors.to_vec(),
    }
}

/// Strands of 4 under a duplex of 6: what each orientation makes of both, and of their duplex.
#[test]
fn the_four_turns_of_the_two_sides() {
    let r1 = Columns {
        bases: b"ACGA".to_vec(),
        quals: vec![30, 31, 32, 33],
        depths: vec![1, 2, 3, 4],
        errors: vec![0, 1, 0, 1],
    };
    let r2 = Columns {
        bases: b"TTAG".to_vec(),
        quals: vec![20, 21, 22, 23],
        depths: vec![5, 6, 7, 8],
        errors: vec![1, 0, 1, 0],
    };
    let first = columns(b"ACGAnn", [30, 31, 32, 33, 0, 0], [1, 2, 3, 4, 0, 0], [0, 1, 0, 1, 0, 0]);
    let apart = [
        columns(b"ACGAAA", [30, 31, 9, 11, 21, 20], [1, 2, 11, 11, 6, 5], [0, 1, 8, 7, 0, 1]),
        first.clone(),
        columns(b"nnCTAA", [0, 0, 23, 22, 21, 20], [0, 0, 8, 7, 6, 5], [0, 0, 0, 1, 0, 1]),
    ];
    let level = [
        columns(b"ACGANN", [7, 9, 11, 53, 2, 2], [9, 9, 9, 9, 0, 0], [8, 7, 6, 2, 0, 0]),
        first,
        columns(b"CTAAnn", [23, 22, 21, 20, 0, 0], [8, 7, 6, 5, 0, 0], [0, 1, 0, 1, 0, 0]),
    ];
    for (turns, expected) in [
        ([0, REVERSE], &apart),
        ([0, 0], &level),
        ([REVERSE, 0], &apart),
        ([REVERSE, REVERSE], &level),
    ] {
        let mut call = f1();
        let (low, high) = if turns[0] == 0 { (100, 102) } else { (102, 100) };
        call.records = vec![record(R1 + turns[0], 0, low), record(R2 + turns[1], 0, high)];
        call.records.iter_mut().for_each(|record| record.clipped = 4);
        call.ops = vec![4 * 16];
        call.strands = [Some(r1.clone()), Some(r2.clone())];
        let (answer, buffers) = asked(&call);
        assert_eq!(answer.ending, Called { length: 6 }, "{turns:?}");
        let found = buffers.strands.each_ref().map(|strand| strand.first(6));
        assert_eq!(&found, expected, "{turns:?}");
    }
}

#[test]
fn masks_overwrite_qualities_only() {
    let mut call = f1();
    let plain = asked(&call).1.strands;
    call.options = Options { outer_bases_length: 2, outer_bases_qual: Some(7), ..call.options };
    let mut expected = plain.clone();
    [0, 1, 13, 14].iter().for_each(|&place| expected[0].quals[place] = 7);
    assert!(asked(&call).1.strands == expected);
    call.options.single_strand_qual = Some(4);
    (0..5).chain(10..15).for_each(|place| expected[0].quals[place] = 4);
    assert!(asked(&call).1.strands == expected);
    call.options.outer_bases_length = u64::MAX;
    (5..10).for_each(|place| expected[0].quals[place] = 7);
    assert!(asked(&call).1.strands == expected);
}

#[test]
fn a_ledger_goes_from_call_to_call() {
    let mut uncalled = f2();
    uncalled.strands[1] = None;
    let calls = [f1(), f2(), uncalled, f1()];
    let last = calls.iter().fold(Ledger::default(), |ledger, call| after(ledger, call).0.ledger);
    let one = asked(&f1()).0.ledger;
    assert_eq!((last.families, last.records, last.duplexes, last.bases), (4, 8, 2, 30));
    assert_eq!((last.used, last.no_strand, last.rejected(Reason::ClipOverlapFailed)), (4, 2, 2));
    assert_eq!(last.duplex_bases, 2 * one.duplex_bases);
    assert_eq!(last.disagreements, 2 * one.disagreements);
}

#[test]
fn room_has_what_a_call_needs() {
    let call = pairs(2);
    let (expected, buffers) = asked(&call);
    let (mut room, mut samples) = (Room::new(), Samples::new());
    let [r1, r2] = call.strands.each_ref().map(|strand| strand.as_ref().map(Columns::strand));
    let mut ask = |options: &Options, ledger: Ledger, room: &mut Room| {
        let (records, ops, samples) = (&call.records, &call.ops, &mut samples);
        family(records, ops, options, r1, r2, ledger, 17, samples, room.lend())
    };
    let answer = ask(&call.options, Ledger::default(), &mut room);
    assert_eq!(answer, expected);
    let own = |s: Strand<'_>| Columns {
        bases: s.bases.to_vec(),
        quals: s.quals.to_vec(),
        depths: s.depths.to_vec(),
        errors: s.errors.to_vec(),
    };
    let found = [room.duplex(15), room.r1(15), room.r2(15)].map(own);
    assert_eq!(found, buffers.strands.map(|strand| strand.first(15)));
    assert_eq!((room.rejects(answer.listed).count(), room.marks()), (0, &[0; 8]));
    let options = Options { min_duplex_length: 6, ..call.options };
    let answer = ask(&options, answer.ledger, &mut room);
    assert_eq!(samples.ledger(17), Some(answer.ledger));
    let rejects: Vec<_> = room.rejects(answer.listed).collect();
    assert_eq!(rejects, (0..4).map(|r| (r, Reason::InsufficientOverlap)).collect::<Vec<_>>());
    assert!(room.is_marked(3) && !room.is_marked(4) && !room.is_marked(9_999));
}

#[test]
fn reasons_have_numbers_one_to_ten() {
    for (number, reason) in (1..).zip(Reason::ALL) {
        assert_eq!((reason as u8, Reason::numbered(number)), (number, Some(reason)));
    }
    assert_eq!([0, 11, 255].map(Reason::numbered), [None; 3]);
}
