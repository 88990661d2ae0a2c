//! Which limit rejects, with which figure, and that a rejection writes nothing.

use crate::call::{Call, Position};
use Answer::{DisagreementCount, DisagreementRate};
use codec_host::{Answer, Limits};

const INFINITY: f64 = f64::INFINITY;

/// Positions that both strands call, of which the first few differ, and one that only the first calls.
fn call(disagreements: usize, both: usize) -> Call {
    let position = |base: u8| -> Position { (base, 30, 2, 1) };
    let mut first = vec![position(b'A'); both];
    let mut second = vec![position(b'A'); both];
    second[..disagreements].fill(position(b'C'));
    first.push(position(b'A'));
    second.push((b'n', 0, 0, 0));
    Call::new(&first, &second)
}

fn rejects(disagreements: usize, both: usize, max_disagreements: u64, max_rate: f64, by: Answer) {
    call(disagreements, both).touches_nothing(Limits { max_disagreements, max_rate }, by);
}

fn passes(disagreements: usize, both: usize, max_disagreements: u64, max_rate: f64) {
    let answer = call(disagreements, both).ask(Limits { max_disagreements, max_rate });
    let (bases, disagreements) = (both as u32, disagreements as u32);
    assert_eq!(answer, Answer::Duplex { bases, disagreements }, "{max_disagreements} {max_rate}");
}

#[test]
fn the_rate_must_be_strictly_above_its_limit() {
    passes(1, 4, u64::MAX, 0.25);
    rejects(1, 4, u64::MAX, 0.2, DisagreementRate(0.25));
    rejects(1, 4, u64::MAX, 0.25f64.next_down(), DisagreementRate(0.25));
    rejects(1, 3, u64::MAX, (1.0f64 / 3.0).next_down(), DisagreementRate(1.0 / 3.0));
    passes(1, 3, u64::MAX, 1.0 / 3.0);
    passes(2_047, 2_047, u64::MAX, 1.0);
    rejects(2_047, 2_047, u64::MAX, 1.0f64.next_down(), DisagreementRate(1.0));
}

#[test]
fn nan_never_rejects() {
    for limit in [f64::NAN, -f64::NAN, f64::from_bits(0x7ff0_0000_0000_0001)] {
        passes(0, 1, u64::MAX, limit);
        passes(1, 1, u64::MAX, limit);
    }
}

#[test]
fn below_zero_rejects_even_no_disagreement() {
    rejects(0, 1, u64::MAX, -1.0, DisagreementRate(0.0));
    rejects(0, 1, u64::MAX, -f64::MIN_POSITIVE, DisagreementRate(0.0));
    rejects(0, 1, u64::MAX, (-0.0f64).next_down(), DisagreementRate(0.0));
    rejects(0, 1, u64::MAX, -INFINITY, DisagreementRate(0.0));
}

#[test]
fn zero_of_either_sign_rejects_one_disagreement_and_not_none() {
    for zero in [0.0, -0.0] {
        passes(0, 1, u64::MAX, zero);
        rejects(1, 1, u64::MAX, zero, DisagreementRate(1.0));
    }
}

#[test]
fn the_infinities() {
    passes(5, 5, u64::MAX, INFINITY);
    rejects(5, 5, u64::MAX, -INFINITY, DisagreementRate(1.0));
}

#[test]
fn the_count_must_be_above_its_limit() {
    passes(0, 4, 0, 1.0);
    rejects(1, 4, 0, 1.0, DisagreementCount(1));
    passes(3, 4, 3, 1.0);
    rejects(4, 4, 3, 1.0, DisagreementCount(4));
    rejects(2_047, 2_047, 2_046, INFINITY, DisagreementCount(2_047));
}

#[test]
fn a_count_limit_is_read_in_all_its_bits() {
    for limit in [1 << 32, 1 << 63, u64::from(u32::MAX), u64::MAX] {
        passes(3, 4, limit, 1.0);
    }
}

#[test]
fn the_count_goes_before_the_rate() {
    rejects(2, 4, 1, 0.1, DisagreementCount(2));
    rejects(2, 4, 1, -1.0, DisagreementCount(2));
    rejects(2, 4, 1, f64::NAN, DisagreementCount(2));
    rejects(2, 4, 2, 0.1, DisagreementRate(0.5));
}

#[test]
fn without_a_position_that_both_call_nothing_rejects() {
    for max_rate in [-1.0, -INFINITY, 0.0, -0.0, f64::NAN] {
        passes(0, 0, 0, max_rate);
        let limits = Limits { max_disagreements: 0, max_rate };
        let none = Answer::Duplex { bases: 0, disagreements: 0 };
        assert_eq!(Call::new(&[], &[]).ask(limits), none);
    }
}

#[test]
fn a_refusal_goes_before_the_limits() {
    let mut call = call(4, 4);
    call.results[0].clear();
    call.touches_nothing(Limits { max_disagreements: 0, max_rate: -1.0 }, crate::call::REFUSED);
}
