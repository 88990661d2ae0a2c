//! Pairs of columns for combining alone, every length up to 2,048.

use super::rng::Rng;
use super::strands::{count, quality};
use crate::combine::Pair;
use crate::model::Strand;

/// Two columns of equal length with limits; at most so many positions.
pub fn columns(rng: &mut Rng, most: usize) -> Pair {
    let length = match rng.weighted(&[30, 40, 30]) {
        0 => rng.range(0, 8),
        1 => rng.range(0, 300),
        _ => rng.pick(&[2_047, 2_048, 1_000, 1_024]),
    };
    let length = (length as usize).min(most);
    let manner = [rng.index(5), rng.index(3)];
    let letters: &[u8] = rng.pick(&[&b"ACGTNn"[..], b"AC", b"AACCNn", b"Nn", b"ACGT"]);
    let every_byte = rng.chance(10);
    let strands = [(); 2].map(|()| {
        let mut strand = Strand::default();
        for _ in 0..length {
            let letter = rng.pick(letters);
            strand.bases.push(if every_byte { rng.draw() as u8 } else { letter });
            strand.quals.push(quality(rng, manner[0]));
            strand.depths.push(count(rng, manner[1]));
            strand.errors.push(count(rng, manner[1]));
        }
        strand
    });
    let open = rng.chance(80);
    let max_disagreements = if open { u64::MAX } else { rng.pick(&[u64::MAX, 0, 1, 5, 100]) };
    let max_rate = match open {
        true => rng.pick(&[1.0, f64::NAN, f64::INFINITY]),
        false => rng.pick(&[1.0, 0.25, 0.2, 0.5, -1.0, -0.0]),
    };
    Pair { strands, max_disagreements, max_rate }
}
