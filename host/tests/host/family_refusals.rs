//! Refusals 1 to 11, one below and one above each limit; nothing is written, the ledger stays.

use crate::family_call::{
    R1, R2, REVERSE, after, asked, ending, f1, is_refused, pairs, record, refused, strand,
};
use codec_host::text::Columns;
use codec_host::text::family::{Books, Buffers, Call};
use codec_host::{Ending, Ledger, Reason, Record};

fn f1_with(change: impl Fn(&mut Call)) -> Call {
    let mut call = f1();
    change(&mut call);
    call
}

/// The last of three pairs' R1, which is record 4, with operations of its own.
fn with_record(ops: &[u32], change: impl Fn(&mut Record)) -> Call {
    let mut call = pairs(3);
    let start = call.ops.len() as u32;
    call.ops.extend(ops);
    if !ops.is_empty() {
        (call.records[4].start, call.records[4].count) = (start, ops.len() as u32);
    }
    change(&mut call.records[4]);
    call
}

fn within(call: &Call) {
    let ending = ending(call);
    assert!(!is_refused(ending), "{ending:?}");
}

#[test]
fn refusal_1_the_minimum_duplex_length() {
    let minimum = |length| f1_with(|call| call.options.min_duplex_length = length);
    assert_eq!(ending(&minimum(2_147_483_647)), Ending::Rejected(Reason::InsufficientOverlap));
    for above in [2_147_483_648, 1 << 63, u64::MAX] {
        assert_eq!(ending(&minimum(above)), refused(1, 0));
    }
}

#[test]
fn refusal_2_records_and_words() {
    within(&pairs(256));
    let mut call = pairs(256);
    call.records.push(record(0, 0, 0));
    assert_eq!(ending(&call), refused(2, 0));
    assert_eq!(ending(&pairs(2_000)), refused(2, 0));
    within(&f1_with(|call| call.ops.resize(8_192, 0)));
    assert_eq!(ending(&f1_with(|call| call.ops.resize(8_193, 0))), refused(2, 0));
}

#[test]
fn refusal_3_the_part_of_the_words() {
    within(&with_record(&[160], |_| ()));
    let part = |start, count| with_record(&[160], |r| (r.start, r.count) = (start, count));
    for (start, count) in [(1, 2), (2, 1), (3, 0), (u32::MAX, 1), (1, u32::MAX), (u32::MAX, 2)] {
        assert_eq!(ending(&part(start, count)), refused(3, 4), "{start} {count}");
    }
    within(&with_record(&[160], |r| (r.start, r.count, r.clipped) = (2, 0, 0)));
    within(&with_record(&[16; 64], |r| r.clipped = 64));
    assert_eq!(ending(&with_record(&[16; 65], |r| r.clipped = 65)), refused(3, 4));
}

#[test]
fn refusal_4_code_and_length() {
    for code in 0..16 {
        let clipped = if [0, 1, 4, 7, 8].contains(&code) { 11 } else { 10 };
        let call = with_record(&[160, 16 + code], |r| r.clipped = clipped);
        assert_eq!(ending(&call) == refused(4, 4), code > 8, "code {code}");
        let none = with_record(&[160, code], |_| ());
        assert_eq!(ending(&none), refused(4, 4), "length 0, code {code}");
    }
}

#[test]
fn refusal_5_the_clipped_length() {
    within(&with_record(&[1_024 * 16], |r| r.clipped = 1_024));
    assert_eq!(ending(&with_record(&[1_025 * 16], |r| r.clipped = 1_025)), refused(5, 4));
    for wrong in [0, 9, 11, u32::MAX] {
        assert_eq!(ending(&with_record(&[], |r| r.clipped = wrong)), refused(5, 4));
    }
}

#[test]
fn refusal_6_position_and_reference_bases() {
    for (position, good) in
        [(0, false), (1, true), (536_870_911, true), (536_870_912, false), (u32::MAX, false)]
    {
        let ending = ending(&with_record(&[], |r| r.position = position));
        assert_eq!(ending != refused(6, 4), good, "{position}");
    }
    let skip = ((1 << 28) - 1) * 16 + 3;
    within(&with_record(&[skip, skip, 16], |r| r.clipped = 1));
    assert_eq!(ending(&with_record(&[skip, skip, 32], |r| r.clipped = 2)), refused(6, 4));
}

#[test]
fn only_entered_records_are_looked_at() {
    let mut call = f1();
    let odd = Record { clipped: 9, start: 7, count: 99, position: 0, ..record(0, 9, 0) };
    call.records.extend([odd, Record { flags: R1, name: 10, ..odd }]);
    call.records.push(Record { flags: R2 + REVERSE + 256, name: 0, ..odd });
    assert_eq!(ending(&call), Ending::Called { length: 15 });
}

fn columns_of(strand: &mut Columns, change: usize, longer: bool) {
    fn fit<T: Default>(column: &mut Vec<T>, longer: bool) {
        if longer { column.push(T::default()) } else { _ = column.pop() }
    }
    match change {
        0 if longer => strand.bases.push(b'A'),
        0 => fit(&mut strand.bases, false),
        1 => fit(&mut strand.quals, longer),
        2 => fit(&mut strand.depths, longer),
        _ => fit(&mut strand.errors, longer),
    }
}

#[test]
fn refusal_7_the_columns_of_a_strand() {
    for side in 0..2 {
        let of_length = |length| f1_with(|call| call.strands[side] = Some(strand(length)));
        assert_eq!(ending(&of_length(1_024)), Ending::Rejected(Reason::ClipOverlapFailed));
        assert_eq!(ending(&of_length(1_025)), refused(7, side as u64));
        for column in 0..4 {
            for (longer, other) in [(false, 0), (true, 0), (true, 1), (false, 1)] {
                let call = f1_with(|call| {
                    let strand = call.strands[side].as_mut().expect("both are there");
                    columns_of(strand, column, longer);
                    // The other strand absent makes no difference.
                    if other == 1 {
                        call.strands[1 - side] = None;
                    }
                });
                assert_eq!(ending(&call), refused(7, side as u64), "{column} {longer}");
            }
        }
    }
}

#[test]
fn refusal_8_the_bases_of_a_strand() {
    for side in 0..2 {
        for place in [0, 4, 9] {
            for base in 0..=u8::MAX {
                let call = f1_with(|call| {
                    call.strands[side].as_mut().expect("both are there").bases[place] = base;
                });
                let good = b"ACGTNn".contains(&base);
                assert_eq!(ending(&call) != refused(8, side as u64), good, "{base} at {place}");
            }
        }
    }
}

/// One lent column one place short, as it is, or one place longer.
fn resized(buffers: &mut Buffers, column: usize, by: isize) {
    fn fit<T: Copy>(column: &mut Vec<T>, by: isize) {
        let length = column.len().saturating_add_signed(by);
        column.resize(length, column[0]);
    }
    match column {
        0..12 => {
            let Columns { bases, quals, depths, errors } = &mut buffers.strands[column / 4];
            match column % 4 {
                0 => fit(bases, by),
                1 => fit(quals, by),
                2 => fit(depths, by),
                _ => fit(errors, by),
            }
        }
        12 => fit(&mut buffers.listed, by),
        13 => fit(&mut buffers.reasons, by),
        _ => fit(&mut buffers.marks, by),
    }
}

#[test]
fn refusal_9_each_lent_column() {
    for mut call in [f1(), f1_with(|call| call.records.clear())] {
        let (expected, _) = asked(&call);
        for column in 0..15 {
            for by in [-1, 0, 1] {
                let mut before = call.buffers(0x77);
                resized(&mut before, column, by);
                let mut buffers = before.clone();
                let answer = call.ask(&mut Books::default(), &mut buffers);
                let ending = if by < 0 { refused(9, 0) } else { expected.ending };
                assert_eq!(answer.ending, ending, "column {column} by {by}");
                buffers.restore(&before, &answer);
                assert!(buffers == before, "column {column} by {by}");
            }
        }
        for places in [[0, 0, 0], [2_048, 0, 0], [0, 512, 8], [2_048, 512, 0]] {
            call.places = places;
            assert_eq!(ending(&call), refused(9, 0));
        }
        call.places = [2_049, 600, 16];
        assert_eq!(ending(&call), expected.ending);
    }
}

#[test]
fn refusals_10_and_11_the_ledger() {
    let call = f1();
    let full = Ledger { families: 1 << 28, ..Ledger::default() };
    let room = Ledger { families: (1 << 28) - 1, ..full };
    let over = Ledger { families: (1 << 28) + 1, ..full };
    assert_eq!(after(room, &call).0.ending, Ending::Called { length: 15 });
    assert_eq!(after(room, &call).0.ledger.families, 1 << 28);
    assert_eq!(after(full, &call).0.ending, refused(11, 0));
    assert_eq!(after(over, &call).0.ending, refused(10, 0));
    for count in 1..20 {
        let with = |figure: u64| {
            let mut counts = full.counts();
            (counts[0], counts[count]) = (0, figure);
            Ledger::from(counts)
        };
        assert!(!is_refused(after(with(1 << 41), &call).0.ending), "{count}");
        for above in [(1 << 41) + 1, 1 << 63, u64::MAX] {
            assert_eq!(after(with(above), &call).0.ending, refused(10, 0), "{count}");
        }
        let both = Ledger { families: 1 << 28, ..with(u64::MAX) };
        assert_eq!(after(both, &call).0.ending, refused(10, 0), "{count}");
    }
}

#[test]
fn the_lowest_number_goes_first() {
    let full = Ledger { families: 1 << 28, ..Ledger::default() };
    let over = Ledger { families: u64::MAX, ..full };
    // Each cause by itself; all causes from one number on give that number.
    let causes: [fn(&mut Call); 9] = [
        |call| call.options.min_duplex_length = u64::MAX,
        |call| call.ops.resize(9_000, 160),
        |call| call.records[3].start = 600_000,
        |call| call.ops[2] = 9,
        |call| call.records[1].clipped = 9,
        |call| call.records[0].position = 0,
        |call| call.strands[1].as_mut().expect("there").quals.clear(),
        |call| call.strands[0].as_mut().expect("there").bases[0] = b'x',
        |call| call.places = [2_047, 512, 8],
    ];
    let with = [0, 0, 3, 2, 1, 0, 1, 0, 0];
    for first in 0..causes.len() {
        let mut call = pairs(3);
        call.ops = vec![160, 160, 160];
        call.records[2].start = 2;
        causes[first..].iter().for_each(|cause| cause(&mut call));
        let number = first as u32 + 1;
        assert_eq!(after(over, &call).0.ending, refused(number, with[first]));
        let mut call = pairs(3);
        call.ops = vec![160, 160, 160];
        call.records[2].start = 2;
        causes[first](&mut call);
        assert_eq!(after(full, &call).0.ending, refused(number, with[first]));
    }
    assert_eq!(after(over, &f1()).0.ending, refused(10, 0));
    assert_eq!(after(full, &f1()).0.ending, refused(11, 0));
}

#[test]
fn the_lowest_record_and_strand_go_first() {
    let mut call = pairs(3);
    [5, 3, 4].iter().for_each(|&record| call.records[record].position = 0);
    assert_eq!(ending(&call), refused(6, 3));
    let mut call = f1();
    call.strands.iter_mut().flatten().for_each(|strand| strand.bases[9] = b'-');
    assert_eq!(ending(&call), refused(8, 0));
    call.strands[1].as_mut().expect("there").depths.pop();
    assert_eq!(ending(&call), refused(7, 1));
}
