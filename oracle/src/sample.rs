//! A small fixed list that still reaches every ending, refusal and wrong reading.

use crate::answers::{State, written};
use crate::bite::Asked;
use crate::cases;
use crate::generate::{Calls, Named};
use crate::model::{Call, Ledger, SAMPLES};
use crate::plain::wrong::{ALL, Wrong};
use crate::shrink::smallest;
use std::collections::HashMap;

/// Families wanted for each ending, refusal and wrong reading.
const WANTED: usize = 3;

/// Document 01's cases first, then the shortest of N families that show something still wanted.
pub fn calls(seed: u64, families: usize) -> Vec<Call> {
    let mut generated: Vec<Call> = Calls::new(seed).take(families).collect();
    generated.sort_by_cached_key(|call| written(std::slice::from_ref(call)).len());
    let mut shown: HashMap<String, usize> = HashMap::new();
    let mut list = cases::calls();
    for call in generated {
        let keys = keys(&Asked::alone(&call));
        if keys.iter().any(|key| shown.get(key).copied().unwrap_or(0) < WANTED) {
            keys.into_iter().for_each(|key| *shown.entry(key).or_default() += 1);
            list.push(call);
        }
    }
    with_own_ledgers(list)
}

/// Request 01's cases first, then N families cut down while they show something of the samples that is still wanted.
pub fn named(seed: u64, families: usize) -> Vec<Call> {
    let mut shown: HashMap<String, usize> = HashMap::new();
    let mut list = cases::named();
    let mut state = State::default();
    for call in Named::new(seed).take(families) {
        let met = state.met(&call);
        Asked::after(&mut state, &call);
        let wanted: Vec<String> = keys_of_samples(&met)
            .into_iter()
            .filter(|key| shown.get(key).copied().unwrap_or(0) < WANTED)
            .collect();
        if !wanted.is_empty() {
            let shows = |call: &Call| {
                let keys = keys_of_samples(call);
                wanted.iter().all(|key| keys.contains(key))
            };
            list.push(smallest(&met, 5_000, shows));
            wanted.into_iter().for_each(|key| *shown.entry(key).or_default() += 1);
        }
    }
    list[cases::named().len()..].iter_mut().for_each(with_own_sample);
    list
}

/// Whatever the calls before left, this one meets fresh ledgers or those that it sets.
fn with_own_sample(call: &mut Call) {
    call.ledger.get_or_insert_default();
    let sample = *call.sample.get_or_insert(0);
    if sample < SAMPLES && call.sample_ledgers.iter().all(|(other, _)| *other != sample) {
        call.sample_ledgers.push((sample, Ledger::default()));
    }
}

/// The readings of request 01.
fn of_samples(wrong: Wrong) -> bool {
    wrong as usize >= Wrong::SampleAfterOne as usize
}

fn keys_of_samples(call: &Call) -> Vec<String> {
    let asked = Asked::alone(call);
    let readings = ALL.iter().filter(|(wrong, _)| of_samples(*wrong));
    let told = readings.filter(|(wrong, _)| asked.tells_apart(*wrong)[0]);
    told.map(|(_, slip)| slip.to_string()).collect()
}

fn keys(asked: &Asked) -> Vec<String> {
    let readings = ALL.iter().filter(|(wrong, _)| !of_samples(*wrong));
    let told = readings.filter(|(wrong, _)| asked.tells_apart(*wrong).contains(&true));
    let mut keys: Vec<String> = told.map(|(_, slip)| slip.to_string()).collect();
    keys.push(asked.ending());
    keys
}

/// A call behind one with a ledger of its own must not inherit that.
fn with_own_ledgers(mut list: Vec<Call>) -> Vec<Call> {
    for at in 1..list.len() {
        if list[at - 1].ledger.is_some_and(|ledger| ledger != Ledger::default()) {
            list[at].ledger.get_or_insert(Ledger::default());
        }
    }
    list
}
