//! The handover list is by rising record number, place by place.

use crate::family_call::{R1, R2, REVERSE, asked, ending, pairs, record};
use codec_host::text::family::Call;
use codec_host::{Ending, MAX_RECORDS, Reason};

fn list(call: &Call) -> Vec<(u32, u8)> {
    let (answer, buffers) = asked(call);
    buffers.list(answer.listed)
}

#[test]
fn neither_names_nor_sides_order_the_list() {
    let mut call = pairs(2);
    // Record 2 is R1 of the second name, so that order by side, by name and by record differ.
    call.records = vec![
        record(R1, 1, 100),
        record(R2 + REVERSE, 2, 105),
        record(R1, 2, 100),
        record(R2 + REVERSE, 1, 105),
    ];
    call.options.min_reads_per_strand = 3;
    assert_eq!(ending(&call), Ending::Rejected(Reason::InsufficientReads));
    assert_eq!(list(&call), [(0, 3), (1, 3), (2, 3), (3, 3)]);
}

#[test]
fn reasons_do_not_order_the_list() {
    let mut call = pairs(4);
    // 4M 2D 6M of the second name's R1 is a minority; a third of R2's ranks is in excess.
    call.ops.extend([4 * 16, 2 * 16 + 2, 6 * 16]);
    (call.records[2].start, call.records[2].count) = (1, 3);
    call.records.extend([record(R1, 8, 1), record(0, 9, 1)]);
    call.options.max_reads_per_strand = Some(3);
    assert_eq!(ending(&call), Ending::Called { length: 15 });
    assert_eq!(list(&call), [(1, 5), (2, 4), (8, 2), (9, 1)]);
}

#[test]
fn the_list_fills_its_columns_to_the_last_place() {
    for places in [MAX_RECORDS, MAX_RECORDS + 3] {
        let mut call = pairs(1);
        call.records = (0..MAX_RECORDS as u32).map(|name| record(0, name, 1)).collect();
        call.places[1] = places;
        assert_eq!(ending(&call), Ending::Empty);
        let expected: Vec<_> = (0..MAX_RECORDS as u32).map(|record| (record, 1)).collect();
        assert_eq!(list(&call), expected);
    }
}
