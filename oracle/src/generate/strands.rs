//! Strands to hand over: two copies of one molecule, with slips, no-calls and odd figures.

use super::rng::Rng;
use crate::model::{Family, Strand};
use crate::plain::Reader;

/// How the figures of one family are drawn.
struct Manner {
    qualities: usize,
    counts: usize,
    no_calls: u64,
    slips: u64,
}

pub fn hand_over(rng: &mut Rng, family: &mut Family) {
    let manner = manner(rng);
    let chosen = Reader(None).chosen(family);
    let length = chosen.as_ref().map_or(10, |chosen| chosen.length as usize);
    let molecule: Vec<u8> = (0..length + 2).map(|_| rng.pick(b"ACGT")).collect();
    let present = [!rng.chance(3), !rng.chance(3)];
    for side in 0..2 {
        let lone = present[side] && !present[1 - side];
        let bases = if lone && rng.chance(30) { length + 1 } else { strand_length(rng, length) };
        let bases = bases.min(1_024);
        let left = chosen.as_ref().is_some_and(|chosen| chosen.reverse[side]);
        let from = if left { length.saturating_sub(bases) } else { 0 };
        let turned = chosen.as_ref().is_some_and(|c| c.r1_is_negative == (side == 0));
        let mut strand = copied(rng, &manner, &molecule[from..from + bases]);
        if turned {
            strand.turn();
        }
        family.strands[side] = present[side].then_some(strand);
    }
}

fn manner(rng: &mut Rng) -> Manner {
    Manner {
        qualities: rng.weighted(&[25, 30, 15, 15, 15]),
        counts: rng.weighted(&[50, 25, 25]),
        no_calls: rng.pick(&[0, 0, 5, 30]),
        slips: rng.pick(&[0, 3, 10, 50]),
    }
}

/// At most the duplex's length but for a few.
fn strand_length(rng: &mut Rng, length: usize) -> usize {
    match rng.weighted(&[70, 20, 3, 4]) {
        0 => rng.range(length as u64 * 6 / 10, length as u64) as usize,
        1 => length,
        2 => length + rng.range(1, 2) as usize,
        _ => rng.range(0, 2).min(length as u64) as usize,
    }
}

fn copied(rng: &mut Rng, manner: &Manner, molecule: &[u8]) -> Strand {
    let mut strand = Strand::default();
    for &base in molecule {
        let base = if rng.chance(manner.slips) { rng.pick(b"ACGT") } else { base };
        let base = if rng.chance(manner.no_calls) { rng.pick(b"NNn") } else { base };
        strand.bases.push(base);
        strand.quals.push(quality(rng, manner.qualities));
        strand.depths.push(count(rng, manner.counts));
        strand.errors.push(count(rng, manner.counts));
    }
    strand
}

pub fn quality(rng: &mut Rng, manner: usize) -> u8 {
    match manner {
        0 => 30,
        1 => rng.range(0, 4) as u8,
        2 => rng.range(0, 255) as u8,
        3 => rng.range(20, 40) as u8,
        _ => rng.pick(&[0, 1, 2, 3, 46, 47, 90, 92, 93, 94, 255]),
    }
}

pub fn count(rng: &mut Rng, manner: usize) -> u16 {
    match manner {
        0 => rng.range(0, 9) as u16,
        1 => rng.pick(&[0, 1, 2, 16_384, 32_766, 32_767, 32_768, 40_000, 65_535]),
        _ => rng.draw() as u16,
    }
}
