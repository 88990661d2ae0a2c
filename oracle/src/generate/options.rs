//! Options around what the family makes of them: one below, at, and one above.

use super::rng::Rng;
use crate::model::{Books, Family, Ledger, Selection};
use crate::plain::Reader;

/// Minimum reads, cap, window and its minimum length.
pub fn choose_window(rng: &mut Rng, family: &mut Family) {
    let pairs = family.records.len() as u64 / 2;
    family.options.min_reads = match rng.weighted(&[77, 10, 10, 1, 1, 1]) {
        0 => 1,
        1 => 0,
        2 => rng.range(1, pairs.max(1)),
        3 => pairs,
        4 => pairs + 1,
        _ => u64::MAX - rng.range(0, 1),
    };
    family.options.cap = match rng.weighted(&[52, 40, 2, 3, 3]) {
        0 => None,
        1 => Some(rng.range(1, pairs.max(1))),
        2 => Some(0),
        3 => Some(pairs + 1),
        _ => Some(u64::MAX - rng.range(0, 1)),
    };
    let inner = window_length(family);
    family.options.legacy = rng.chance(23);
    let legacy = window_length(family);
    let weights =
        if family.options.legacy { [60, 5, 15, 6, 4, 6, 1] } else { [80, 9, 3, 0, 0, 6, 1] };
    family.options.min_duplex_length = match (rng.weighted(&weights), inner, legacy) {
        (1, Some(length), _) => length,
        (2, Some(length), _) => length + 1,
        (3, _, Some(length)) => length,
        (4, _, Some(length)) => length + 1,
        (5, ..) => 0,
        (6, ..) => 2_147_483_647,
        _ => 1,
    };
}

/// The window's length where it has one that can be told.
fn window_length(family: &Family) -> Option<u64> {
    match Reader(None).selection(family) {
        Ok(Selection::Kept { window, .. }) => u64::try_from(window.1 - window.0 + 1).ok(),
        _ => None,
    }
}

/// The two limits and the masks, around the tallies of the strands handed over.
pub fn choose_limits(rng: &mut Rng, family: &mut Family) {
    let options = &mut family.options;
    options.outer_length = rng.pick(&[0, 1, 2, 5, 5, 20, 5_000, u64::MAX]);
    options.outer_quality = if rng.chance(40) { Some(rng.pick(&[0, 2, 3, 20, 255])) } else { None };
    let single = if rng.chance(40) { Some(rng.pick(&[0, 2, 4, 20, 255])) } else { None };
    options.single_strand_quality = single;
    let Ok(answer) = Reader(None).family_call(family, 0, &Books::default()) else { return };
    let both = answer.books.run.0[Ledger::DUPLEX_BASES];
    let unequal = answer.books.run.0[Ledger::DISAGREEMENTS];
    let options = &mut family.options;
    options.max_disagreements = match rng.weighted(&[62, 18, 4, 7, 2, 7]) {
        0 => u64::MAX,
        1 => unequal,
        2 => unequal.saturating_sub(1),
        3 => unequal + 1,
        4 => 0,
        _ => 100,
    };
    options.max_rate = rate(rng, unequal as f64 / both as f64);
}

fn rate(rng: &mut Rng, exact: f64) -> f64 {
    if exact.is_nan() {
        return rng.pick(&[1.0, 0.0, -1.0, f64::NEG_INFINITY, f64::NAN]);
    }
    match rng.weighted(&[55, 14, 4, 4, 5, 3, 15]) {
        0 => 1.0,
        1 => exact,
        2 => exact.next_down(),
        3 => f64::from(exact as f32),
        4 => f64::NAN,
        5 => rng.pick(&[-1.0, f64::NEG_INFINITY, -0.0, 0.0]),
        _ => rng.pick(&[0.25, 0.2, 0.5, 1.0, f64::INFINITY]),
    }
}
