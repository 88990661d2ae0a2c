//! Every short input over the values at which a rule changes.

use codec_host::text::{Columns, Pair};
use codec_host::{Limits, MAX_POSITIONS};

/// The six letters, lower case, the neighbours of N and n, and both ends of a byte.
pub const BASES: [u8; 14] = *b"ACGTNnacMOmo\0\xff";
/// Around 0, the no-call quality 2, half the cap, the cap 93, and the end of a byte.
pub const QUALITIES: [u8; 14] = [0, 1, 2, 3, 4, 46, 47, 91, 92, 93, 94, 95, 254, 255];
/// Around 0, the short ceiling, and the end of 16 bits.
pub const COUNTS: [u16; 6] = [0, 1, 32_766, 32_767, 32_768, 65_535];

const RATES: [f64; 18] = [
    f64::NAN,
    f64::NEG_INFINITY,
    -1.0,
    -f64::MIN_POSITIVE,
    -0.0,
    0.0,
    f64::MIN_POSITIVE,
    0.2,
    0.25,
    1.0 / 3.0,
    0.333_333_333_333_333_26,
    0.5,
    2.0 / 3.0,
    0.75,
    0.999_999_999_999_999_9,
    1.0,
    1.000_000_000_000_000_2,
    f64::INFINITY,
];
const COUNT_LIMITS: [u64; 7] = [0, 1, 2, 3, 4, 1 << 32, u64::MAX];

/// Every position over the three lists, packed into columns without limits.
pub fn positions(mut each: impl FnMut(Pair) -> Result<(), String>) -> Result<(), String> {
    let mut columns = [Columns::default(), Columns::default()];
    for [a, b] in pairs_of(&BASES) {
        for [qa, qb] in pairs_of(&QUALITIES) {
            for [da, db] in pairs_of(&COUNTS) {
                for [ea, eb] in pairs_of(&COUNTS) {
                    push(&mut columns[0], a, qa, da, ea);
                    push(&mut columns[1], b, qb, db, eb);
                    if columns[0].bases.len() == MAX_POSITIONS {
                        each(without_limits(std::mem::take(&mut columns)))?;
                    }
                }
            }
        }
    }
    each(without_limits(columns))
}

/// Every pair of columns of up to four bases out of A, C, N and n, under every pair of limits.
pub fn limits(mut each: impl FnMut(Pair) -> Result<(), String>) -> Result<(), String> {
    let bases: Vec<[u8; 2]> = pairs_of(b"ACNn").collect();
    for length in 0..=4 {
        for number in 0..bases.len().pow(length) {
            let mut columns = [Columns::default(), Columns::default()];
            for place in 0..length {
                let [a, b] = bases[number / bases.len().pow(place) % bases.len()];
                push(&mut columns[0], a, 30, 3, 1);
                push(&mut columns[1], b, 20, 2, 0);
            }
            let mut pair = without_limits(columns);
            for max_disagreements in COUNT_LIMITS {
                for max_rate in RATES {
                    pair.limits = Limits { max_disagreements, max_rate };
                    each(pair.clone())?;
                }
            }
        }
    }
    Ok(())
}

fn pairs_of<T: Copy>(values: &[T]) -> impl Iterator<Item = [T; 2]> {
    values.iter().flat_map(|&a| values.iter().map(move |&b| [a, b]))
}

fn push(columns: &mut Columns, base: u8, quality: u8, depth: u16, error: u16) {
    columns.bases.push(base);
    columns.quals.push(quality);
    columns.depths.push(depth);
    columns.errors.push(error);
}

fn without_limits([first, second]: [Columns; 2]) -> Pair {
    Pair { first, second, limits: Limits::NONE }
}
