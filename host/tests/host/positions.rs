//! The rules of a position, through both forms of the call.

use crate::call::{Call, P_TABLE, Position, columns};
use codec_host::{Answer, Limits, text};

fn combined(first: Position, second: Position) -> Position {
    let column = |p: Position| text::Columns {
        bases: vec![p.0],
        quals: vec![p.1],
        depths: vec![p.2],
        errors: vec![p.3],
    };
    let pair = text::Pair { first: column(first), second: column(second), limits: Limits::NONE };
    let (answer, duplex) = pair.combine();
    assert!(matches!(answer, Answer::Duplex { .. }));
    (duplex.bases[0], duplex.quals[0], duplex.depths[0], duplex.errors[0])
}

#[test]
fn the_p_table_as_words() {
    for [first, second, duplex] in P_TABLE {
        assert_eq!(combined(first, second), duplex);
    }
}

#[test]
fn the_p_table_as_byte_pairs() {
    for [first, second, duplex] in P_TABLE {
        let mut call = Call::new(&[first], &[second]);
        call.ask(Limits::NONE);
        assert_eq!(call.results, columns(&[duplex]));
    }
}

#[test]
fn byte_pairs_have_the_low_byte_first() {
    let mut call = Call::new(&[(b'A', 30, 0x1234, 0x0102)], &[(b'n', 0, 0, 0)]);
    assert_eq!(call.strands[2..4], [vec![0x34, 0x12], vec![0x02, 0x01]]);
    call.ask(Limits::NONE);
    assert_eq!(call.results[2..], [vec![0x34, 0x12], vec![0x02, 0x01]]);
}

#[test]
fn every_base_byte_but_two_is_data() {
    for base in 0..=u8::MAX {
        let [data, no_call] = [!b"Nn".contains(&base), base == b'N'];
        let beside_padding = combined((base, 40, 3, 1), (b'n', 0, 0, 2));
        let expected = if data { (base, 40, 3, 1) } else { (b'N', 2, 0, 3) };
        assert_eq!(beside_padding, expected, "{base}");
        let beside_a = combined((base, 40, 3, 1), (b'A', 30, 5, 2));
        let expected = match (data, base == b'A') {
            (true, true) => (b'A', 70, 8, 3),
            (true, false) => (base, 10, 8, 4),
            (false, _) if no_call => (b'N', 2, 5, 2),
            (false, _) => (b'A', 30, 5, 2),
        };
        assert_eq!(beside_a, expected, "{base}");
    }
}

#[test]
fn the_losers_depth_is_not_capped_in_the_error() {
    let duplex = combined((b'A', 30, 1, 0), (b'C', 20, 40_000, 10_000));
    assert_eq!(duplex, (b'A', 10, 32_768, 30_000));
}

#[test]
fn qualities_below_two_keep_their_base() {
    assert_eq!(combined((b'A', 0, 1, 0), (b'A', 1, 1, 0)), (b'A', 1, 2, 0));
    assert_eq!(combined((b'A', 1, 1, 0), (b'n', 0, 0, 0)), (b'A', 1, 1, 0));
    assert_eq!(combined((b'A', 9, 1, 0), (b'C', 8, 1, 0)), (b'N', 2, 2, 1));
}
