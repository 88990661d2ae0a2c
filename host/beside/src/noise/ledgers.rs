//! Ledgers, sample numbers and buffers for sheets, around their limits.

use crate::rng::Rng;
use oracle::model::{Books, Ledger, SAMPLES};

/// Around 95, 96 and the last number of all.
pub(super) fn sample(rng: &mut Rng) -> u32 {
    let any = rng.below(SAMPLES as usize) as u32;
    match rng.below(30) {
        0 => rng.pick(&[96, 96, 97, 127, 128, 255, 256, 1 << 31, u32::MAX - 1, u32::MAX]),
        1 => rng.draw() as u32,
        2 => rng.below(200) as u32,
        3..12 => rng.pick(&[0, 1, 94, 95, 95]),
        _ => any,
    }
}

/// The run's and the sample's ledger as drawn, all others alike, often full or overfull, one apart.
pub(super) fn books(
    rng: &mut Rng,
    sample: u32,
    mut ledger: impl FnMut(&mut Rng) -> Ledger,
) -> Books {
    let mut full = small_ledger(rng);
    full.0[0] = 1 << 28;
    let others = [Ledger::default(), small_ledger(rng), full, Ledger([u64::MAX; 20])];
    let mut samples = vec![rng.pick(&others); SAMPLES as usize];
    samples[rng.below(SAMPLES as usize)] = Ledger([(); 20].map(|()| count(rng)));
    if let Some(own) = samples.get_mut(sample as usize) {
        *own = ledger(rng);
    }
    Books { run: ledger(rng), samples }
}

/// Ledgers of a sheet: mostly such as calls lead to, of all sizes, and often one that none leads to.
pub fn ledgers(rng: &mut Rng) -> Vec<Ledger> {
    const LIMITS: [u64; 2] = [1 << 28, 1 << 41];
    let figure = |rng: &mut Rng, limit: u64| match rng.below(12) {
        0 => limit - rng.below(2) as u64,
        1..4 => 0,
        _ => (rng.draw() % limit) >> rng.below(41),
    };
    let with_families = rng.below(101);
    let ledger = |rng: &mut Rng| {
        let mut ledger = Ledger([(); 20].map(|()| figure(rng, LIMITS[1])));
        ledger.0[0] = if rng.chance(with_families) { figure(rng, LIMITS[0]) } else { 0 };
        ledger
    };
    let mut ledgers: Vec<Ledger> = (0..SAMPLES).map(|_| ledger(rng)).collect();
    if rng.chance(30) {
        ledgers[rng.below(SAMPLES as usize)].0[rng.below(20)] = count(rng);
    }
    ledgers
}

/// Bytes lent for a sheet, around what it needs.
pub fn sheet_room(rng: &mut Rng) -> usize {
    let any = rng.below(SHEET_MOST);
    rng.pick(&[16_384, 16_384, 16_384, 16_385, 16_390, SHEET_MOST, 16_383, 0, any])
}

/// Most bytes that are lent for a sheet.
pub const SHEET_MOST: usize = 20_000;

pub(super) fn small_ledger(rng: &mut Rng) -> Ledger {
    Ledger([(); 20].map(|()| rng.below(1_000) as u64))
}

/// One count of a ledger, often at a limit.
pub fn count(rng: &mut Rng) -> u64 {
    let any = rng.draw();
    let small = rng.below(1_000) as u64;
    let limits = [1 << 28, (1 << 28) - 1, (1 << 28) + 1, 1 << 41, (1 << 41) - 1, (1 << 41) + 1];
    match rng.below(24) {
        0 => any,
        1 => u64::MAX,
        2..8 => rng.pick(&limits),
        _ => small,
    }
}

/// Mostly at the limit of families, which the run and a sample have both.
pub(super) fn break_ledger(rng: &mut Rng, ledger: &mut Ledger) {
    let place = if rng.chance(40) { 0 } else { rng.below(20) };
    ledger.0[place] = count(rng);
}
