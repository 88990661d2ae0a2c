//! Turns for eight lanes: the limits, the circle, and eight queues in front of the family call.

use crate::family_call::{after, f1, refused};
use codec_host::text::family::Call;
use codec_host::{Dispatcher, Ending, LANES, Ledger, Refusal, Turn};
use std::collections::VecDeque;

fn fresh() -> Dispatcher {
    Dispatcher::default()
}

/// So many turns, none of them refused.
fn turns(dispatcher: &mut Dispatcher, count: usize) -> Vec<Turn> {
    (0..count)
        .map(|_| dispatcher.turn().expect("the lane served last is one of the eight"))
        .collect()
}

fn lanes<const N: usize>(lanes: [usize; N]) -> Vec<Turn> {
    lanes.map(Turn::Lane).to_vec()
}

fn refusal(number: u32) -> Refusal {
    Refusal { number, with: 0 }
}

#[test]
fn fresh_has_no_family_and_lane_7_as_served_last() {
    assert_eq!(fresh(), Dispatcher { waiting: [0; LANES], last: 7 });
}

#[test]
fn idle_changes_nothing() {
    let mut dispatcher = Dispatcher { last: 3, ..fresh() };
    assert_eq!(dispatcher.turn(), Ok(Turn::Idle));
    assert_eq!(dispatcher, Dispatcher { last: 3, ..fresh() });
}

#[test]
fn the_lane_served_last_comes_last() {
    let mut dispatcher = Dispatcher { waiting: [9; LANES], last: 3 };
    assert_eq!(turns(&mut dispatcher, 9), lanes([4, 5, 6, 7, 0, 1, 2, 3, 4]));
    let mut alone = Dispatcher { waiting: [0, 0, 0, 1, 0, 0, 0, 0], last: 3 };
    assert_eq!(turns(&mut alone, 2), [Turn::Lane(3), Turn::Idle]);
}

#[test]
fn busy_lanes_do_not_hold_up_a_lane_that_waits() {
    let mut dispatcher = Dispatcher { waiting: [0, 0, 1, 0, 0, 0, 0, 0], last: 2 };
    let mut served = Vec::new();
    for _ in 0..LANES {
        (0..8).filter(|&lane| lane != 2).for_each(|lane| dispatcher.add(lane).expect("room"));
        served.extend(turns(&mut dispatcher, 1));
    }
    assert_eq!(served, lanes([3, 4, 5, 6, 7, 0, 1, 2]));
}

#[test]
fn refusal_22_a_lane_above_7() {
    for above in [8, 9, u32::MAX] {
        let full = Dispatcher { waiting: [65_535; LANES], last: 7 };
        let mut dispatcher = full;
        assert_eq!(dispatcher.add(above), Err(refusal(22)));
        assert_eq!(dispatcher, full);
        let far = Dispatcher { last: above, ..full };
        dispatcher = far;
        assert_eq!(dispatcher.add(0), Err(refusal(22)));
        assert_eq!(dispatcher.turn(), Err(refusal(22)));
        assert_eq!(dispatcher, far);
    }
    assert_eq!(fresh().add(7), Ok(()));
}

#[test]
fn refusal_23_a_full_lane() {
    let mut dispatcher = Dispatcher { waiting: [0, 0, 0, 0, 0, 65_534, 0, 0], last: 4 };
    assert_eq!(dispatcher.add(5), Ok(()));
    assert_eq!(dispatcher.waiting[5], 65_535);
    assert_eq!(dispatcher.add(5), Err(refusal(23)));
    assert_eq!(dispatcher.waiting[5], 65_535);
    assert_eq!(dispatcher.turn(), Ok(Turn::Lane(5)));
    assert_eq!(dispatcher.add(5), Ok(()));
}

/// The example of the README: eight queues of families, the second one of lane 3 refused.
#[test]
fn a_refused_family_has_used_its_turn() {
    let mut broken = f1();
    broken.options.min_duplex_length = 1 << 31;
    let arriving = [(3, f1()), (3, broken), (3, f1()), (0, f1()), (7, f1())];
    let mut dispatcher = fresh();
    let mut queues: [VecDeque<Call>; LANES] = Default::default();
    for (lane, call) in arriving {
        dispatcher.add(lane as u32).expect("room");
        queues[lane].push_back(call);
    }
    let mut ledger = Ledger::default();
    let mut ends = Vec::new();
    while let Ok(Turn::Lane(lane)) = dispatcher.turn() {
        let call = queues[lane].pop_front().expect("as many as were added");
        let (answer, _) = after(ledger, &call);
        ledger = answer.ledger;
        ends.push((lane, answer.ending));
    }
    let called = Ending::Called { length: 15 };
    assert_eq!(ends, [(0, called), (3, called), (7, called), (3, refused(1, 0)), (3, called)]);
    assert_eq!((ledger.families, ledger.duplexes), (4, 4));
    assert_eq!(dispatcher, Dispatcher { last: 3, ..fresh() });
}
