//! Random pairs of strands with random limits.

use crate::enumerated::{BASES, COUNTS, QUALITIES};
use crate::rng::Rng;
use codec_host::Limits;
use codec_host::text::{Columns, Pair};

/// How the values of a column are drawn.
#[derive(Clone, Copy)]
enum Manner {
    Usual,
    AtTheEdges,
    Anything,
}

const MANNERS: [Manner; 3] = [Manner::Usual, Manner::AtTheEdges, Manner::Anything];

/// Two strands of this length; one time in four the second mostly repeats the first one's bases.
pub fn pair(rng: &mut Rng, length: usize) -> Pair {
    let [base, quality, count] = [(); 3].map(|()| rng.pick(&MANNERS));
    let mut strand = || Columns {
        bases: drawn(length, || match base {
            Manner::Usual => rng.pick(b"ACGT"),
            Manner::AtTheEdges => rng.pick(&BASES),
            Manner::Anything => rng.draw() as u8,
        }),
        quals: drawn(length, || match quality {
            Manner::Usual => 2 + rng.below(44) as u8,
            Manner::AtTheEdges => rng.pick(&QUALITIES),
            Manner::Anything => rng.draw() as u8,
        }),
        depths: drawn(length, || drawn_count(rng, count)),
        errors: drawn(length, || drawn_count(rng, count)),
    };
    let (first, mut second) = (strand(), strand());
    if rng.chance(25) {
        for (base, &other) in second.bases.iter_mut().zip(&first.bases) {
            *base = if rng.chance(98) { other } else { *base };
        }
    }
    let limits = limits(rng, length);
    Pair { first, second, limits }
}

fn drawn<T>(length: usize, mut draw: impl FnMut() -> T) -> Vec<T> {
    (0..length).map(|_| draw()).collect()
}

fn drawn_count(rng: &mut Rng, manner: Manner) -> u16 {
    match manner {
        Manner::Usual => rng.below(12) as u16,
        Manner::AtTheEdges => rng.pick(&COUNTS),
        Manner::Anything => rng.draw() as u16,
    }
}

/// Mostly open, so that columns are compared; otherwise near what a pair of this length has.
fn limits(rng: &mut Rng, length: usize) -> Limits {
    if rng.chance(75) {
        return Limits { max_disagreements: u64::MAX, max_rate: rng.pick(&[1.0, f64::NAN]) };
    }
    let near = rng.below(length + 2);
    let anything = rng.draw();
    let max_disagreements = rng.pick(&[0, 1, near as u64, anything, u64::MAX]);
    let ratio = near as f64 / (length + 1) as f64;
    let max_rate = rng.pick(&[ratio, 0.75, 0.02, 0.0, -0.0, -1.0, f64::INFINITY, f64::NAN]);
    let any_rate = f64::from_bits(rng.draw());
    Limits { max_disagreements, max_rate: if rng.chance(5) { any_rate } else { max_rate } }
}
