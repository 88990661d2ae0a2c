//! Which columns fit together, and what of the results is written.

use crate::call::{Call, columns, in_turn, marked, tallies};
use codec_host::{Limits, Results, Strand, combine_bytes};

/// Bytes of a position in a strand's four columns, and in the four results.
const WIDTH: [usize; 4] = [1, 1, 2, 2];

#[test]
fn lengths_up_to_the_limit_fill_the_results() {
    for length in [0, 1, 2, 2_047, 2_048] {
        let mut call = Call::of_length(length);
        assert_eq!(call.ask(Limits::NONE), tallies(length), "{length}");
        assert_eq!(call.results, columns(&in_turn(2, length)), "{length}");
    }
}

#[test]
fn a_length_above_the_limit_is_refused() {
    for length in [2_049, 2_050, 4_096, 65_536 + 1] {
        Call::of_length(length).expect_refusal();
    }
}

#[test]
fn each_column_must_be_as_long_as_the_others() {
    for length in [1, 9, 2_047, 2_048] {
        for column in 0..8 {
            let width = WIDTH[column % 4];
            let mut shorter = Call::of_length(length);
            let kept = shorter.strands[column].len() - width;
            shorter.strands[column].truncate(kept);
            shorter.expect_refusal();
            let mut longer = Call::of_length(length);
            longer.strands[column].extend(marked(column, width));
            longer.expect_refusal();
            let mut empty = Call::of_length(length);
            empty.strands[column].clear();
            empty.expect_refusal();
        }
    }
}

#[test]
fn a_strand_shorter_as_a_whole_is_refused() {
    for at in [0, 4] {
        let mut call = Call::of_length(9);
        let shorter = Call::of_length(8);
        call.strands[at..at + 4].clone_from_slice(&shorter.strands[at..at + 4]);
        call.expect_refusal();
    }
}

#[test]
fn an_odd_length_of_byte_pairs_is_refused() {
    for length in [0, 1, 9, 2_047, 2_048] {
        for column in [2, 3, 6, 7] {
            let mut call = Call::of_length(length);
            call.strands[column].push(1);
            call.expect_refusal();
        }
        for column in [2, 3] {
            for extra in [1, 3, 4_097] {
                let mut call = Call::of_length(length);
                call.results[column].extend(marked(column, extra));
                call.expect_refusal();
            }
        }
    }
}

#[test]
fn one_byte_less_is_refused_in_every_column() {
    for length in [1, 9, 2_048] {
        for column in 0..8 {
            let mut call = Call::of_length(length);
            call.strands[column].pop();
            call.expect_refusal();
        }
        for column in 0..4 {
            let mut call = Call::of_length(length);
            call.results[column].pop();
            call.expect_refusal();
        }
    }
}

#[test]
fn a_result_one_short_is_refused() {
    for length in [1, 9, 2_047, 2_048] {
        for (column, width) in WIDTH.into_iter().enumerate() {
            let mut call = Call::of_length(length);
            let kept = call.results[column].len() - width;
            call.results[column].truncate(kept);
            call.expect_refusal();
        }
    }
}

#[test]
fn the_rest_of_a_longer_result_is_untouched() {
    for length in [0, 1, 9, 2_047, 2_048] {
        for extra in [1, 2, 17, 4_096] {
            for long in 0..5 {
                let mut call = Call::of_length(length);
                let mut expected = columns(&in_turn(2, length));
                // The fifth time round all four are longer.
                for column in (0..4).filter(|&column| long == 4 || long == column) {
                    let rest = marked(column + 9, extra * WIDTH[column]);
                    call.results[column].extend(&rest);
                    expected[column].extend(&rest);
                }
                assert_eq!(call.ask(Limits::NONE), tallies(length));
                assert_eq!(call.results, expected, "{length} and {extra}");
            }
        }
    }
}

#[test]
fn columns_may_lie_at_any_address() {
    let length = 2_047;
    let mut call = Call::of_length(length);
    for column in call.strands.iter_mut().chain(&mut call.results) {
        column.insert(0, 0xee);
    }
    let strand = |at: usize| Strand {
        bases: &call.strands[at][1..],
        quals: &call.strands[at + 1][1..],
        depths: &call.strands[at + 2][1..],
        errors: &call.strands[at + 3][1..],
    };
    let [bases, quals, depths, errors] = call.results.each_mut().map(|column| &mut column[1..]);
    let results = Results { bases, quals, depths, errors };
    assert_eq!(combine_bytes(strand(0), strand(4), Limits::NONE, results), tallies(length));
    for (found, expected) in call.results.iter().zip(columns(&in_turn(2, length))) {
        assert_eq!((found[0], &found[1..]), (0xee, expected.as_slice()));
    }
}

#[test]
fn the_strands_are_left_alone() {
    let mut call = Call::of_length(100);
    let strands = call.strands.clone();
    call.ask(Limits::NONE);
    assert_eq!(call.strands, strands);
}
