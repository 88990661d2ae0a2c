//! The time of one call, the exported one and the original's in turn on the same input: combining at 2,048 positions, then
//! whole families, then selection alone, and last the ledger's rates by themselves. The original has no call for selection: its family
//! call stops after step 7 without strands.

use beside::original_call;
use beside::rng::Rng;
use codec_host::text::{Columns, Pair};
use codec_host::{
    Ending, Ledger, Limits, MAX_POSITIONS, MAX_RECORDS, Options, Record, Room, SAMPLES, SHEET_ROOM,
    Samples, Selection, combine, family, select, sheet,
};
use fgumi_raw_bam::hash::forget_ranks;
use fgumi_raw_bam::{Fields, RawRecord};
use original::codec_caller::{CodecConsensusOptions, FamilyCalls};
use original::trace;
use std::hint::black_box;
use std::time::Instant;

/// Different pairs in a round: too many positions for a branch predictor to learn, few enough for the cache.
const PAIRS: usize = 16;
const ROUNDS: usize = 2_001;
/// Enough for families, whose calls are longer.
const FAMILY_ROUNDS: usize = 401;
/// Records between two looks at the clock: few enough that most looks fall into one turn on a busy processor.
const TOGETHER: usize = 64;
/// Bases of a read and of a strand.
const READ: usize = 150;

fn main() {
    let mut rng = Rng::new(1);
    let random: Vec<Pair> = (0..PAIRS).map(|_| pair(&mut rng, 25)).collect();
    let realistic: Vec<Pair> = (0..PAIRS).map(|_| pair(&mut rng, 99)).collect();
    println!(
        "median of {ROUNDS} rounds over {PAIRS} pairs of {MAX_POSITIONS} positions, ns per call"
    );
    println!("{:<36}{:>10}{:>10}{:>8}", "bases", "exported", "original", "ratio");
    report("random", &random);
    report("99 in 100 agreeing", &realistic);
    trace::silence();
    forget_ranks();
    println!("median of {FAMILY_ROUNDS} rounds over {PAIRS} families, ns per call");
    println!("{:<36}{:>10}{:>10}{:>8}", "family call, records", "exported", "original", "ratio");
    let sizes = [2, 4, 8, 32, 128, MAX_RECORDS];
    let families = sizes.map(|records| (0..PAIRS).map(|_| family_of(&mut rng, records)).collect());
    families.iter().for_each(|families: &Vec<Family>| report_family(families));
    println!(
        "{:<36}{:>10}{:>10}{:>8}",
        "selection alone, records", "exported", "original", "ratio"
    );
    families.iter().for_each(|families| report_selection(families));
    report_rates(&mut rng);
    report_sheet(&mut rng);
}

/// A family in the terms of both.
struct Family {
    records: Vec<Record>,
    ops: Vec<u32>,
    raw: Vec<RawRecord>,
    strands: [Columns; 2],
}

/// Pairs of 150 bases whose reads share 100, one record in eight with an insertion or a deletion, and strands of 150.
fn family_of(rng: &mut Rng, records: usize) -> Family {
    let (m, i, d) = (|n: u32| n * 16, 16 + 1, 16 + 2);
    let at = 1_000 + rng.below(1_000_000) as u32;
    let strands = strands_of(rng);
    let mut family = Family { records: Vec::new(), ops: Vec::new(), raw: Vec::new(), strands };
    for number in 0..records {
        let ops = match (number % 16, rng.below(2)) {
            (5 | 14, 0) => vec![m(70), i, m(79)],
            (5 | 14, _) => vec![m(70), d, m(80)],
            _ => vec![m(150)],
        };
        let is_r2 = number % 2 == 1;
        let record = Record {
            flags: if is_r2 { 145 } else { 65 },
            name: (number / 2) as u32,
            verdict: true,
            rank: rng.draw() as i32,
            clipped: READ as u32,
            position: if is_r2 { at + 50 } else { at },
            start: family.ops.len() as u32,
            count: ops.len() as u32,
        };
        family.raw.push(RawRecord::new(&Fields {
            flags: record.flags,
            name: record.name,
            verdict: record.verdict,
            rank: record.rank,
            clipped_length: record.clipped,
            position: record.position,
            operations: &ops,
        }));
        family.records.push(record);
        family.ops.extend(ops);
    }
    family
}

/// Both strands of a molecule of 200 bases as they are read, differing at one position in a hundred.
fn strands_of(rng: &mut Rng) -> [Columns; 2] {
    let molecule = strand(rng, READ + 50);
    let mut r1 = molecule.first(READ);
    let mut r2 = strand(rng, READ);
    let complement = |base: u8| match base {
        b'A' => b'T',
        b'C' => b'G',
        b'G' => b'C',
        _ => b'A',
    };
    for (place, base) in molecule.bases[50..].iter().rev().enumerate() {
        r2.bases[place] = complement(*base);
    }
    r1.bases.iter_mut().filter(|_| rng.chance(1)).for_each(|base| *base = complement(*base));
    [r1, r2]
}

/// The family call and the original's on the same families; the strands are handed to the original before the clock starts.
fn report_family(families: &[Family]) {
    let options = Options::default();
    let mut ledger = Ledger::default();
    let (mut samples, mut sample) = (Samples::new(), 0);
    let mut room = Room::new();
    let mut ask = |given: &Family| {
        let [r1, r2] = given.strands.each_ref().map(|strand| Some(strand.strand()));
        let (records, ops, lent) = (&given.records, &given.ops, room.lend());
        sample = (sample + 1) % SAMPLES as u32;
        let answer = family(records, ops, &options, r1, r2, ledger, sample, &mut samples, lent);
        ledger = answer.ledger;
        black_box((answer.ending, &room));
        answer.ending
    };
    assert!(families.iter().all(|family| ask(family) == Ending::Called { length: 200 }));
    let strands = families.iter().flat_map(|family| &family.strands);
    let strands: Vec<_> = strands.map(|columns| Some(original_call::columns(columns))).collect();
    beside(families, |family| _ = black_box(ask(family)), &strands, 1);
}

fn report_selection(families: &[Family]) {
    let options = Options::default();
    let ask = |family: &Family| select(&family.records, &family.ops, &options);
    assert!(families.iter().all(|family| matches!(ask(family), Selection::Kept { .. })));
    beside(families, |family| _ = black_box(ask(family)), &vec![None; 2 * families.len()], 0);
}

/// The exported call and the original's in turn; the latter makes so many duplexes of each family.
fn beside(
    families: &[Family],
    mut ask: impl FnMut(&Family),
    strands: &[Option<trace::Columns>],
    duplexes: usize,
) {
    let mut calls = FamilyCalls::new(CodecConsensusOptions::default());
    let (mut exported, mut original) = (Vec::new(), Vec::new());
    let records = families[0].records.len();
    let together = (TOGETHER / records).clamp(1, PAIRS);
    for _ in 0..FAMILY_ROUNDS {
        exported.extend(families.chunks(together).map(|some| per_call(some, &mut ask)));
        calls.hand_over(strands.iter().cloned());
        original.extend(families.chunks(together).map(|some| {
            per_call(some, |family| {
                assert!(black_box(calls.call(&family.raw)).is_ok_and(|made| made == duplexes));
            })
        }));
    }
    let (exported, original) = (median(exported), median(original));
    println!("{records:<36}{exported:>10.0}{original:>10.0}{:>8.2}", exported / original);
}

/// Ledgers of a whole run: up to 2^41 duplex bases, of which up to one in 64 differs.
fn report_rates(rng: &mut Rng) {
    let ledger = |_| {
        let duplex_bases = (rng.draw() >> 23) | 1;
        Ledger { duplex_bases, disagreements: duplex_bases >> 6, ..Ledger::default() }
    };
    let ledgers: Vec<Ledger> = (0..PAIRS).map(ledger).collect();
    assert!(ledgers.iter().all(|ledger| ledger.rates().is_ok()));
    let ask = |ledger: &Ledger| _ = black_box(ledger.rates());
    let times = (0..ROUNDS).map(|_| per_call(&ledgers, ask));
    println!("{:<36}{:>10.0}", "ledger's rates", median(times.collect()));
}

/// Sheets of a whole run: all samples with families, counts of up to 41 bits.
fn report_sheet(rng: &mut Rng) {
    let mut samples = |_| {
        let count = |at: usize| if at.is_multiple_of(20) { 1 } else { rng.draw() >> 23 };
        Samples::from(std::array::from_fn(count))
    };
    let all: Vec<Samples> = (0..PAIRS).map(&mut samples).collect();
    let mut buffer = [0; SHEET_ROOM];
    assert!(all.iter().all(|samples| sheet(samples, &mut buffer).is_ok()));
    let mut ask = |samples: &Samples| _ = black_box((sheet(samples, &mut buffer), &buffer));
    let times = (0..FAMILY_ROUNDS).map(|_| per_call(&all, &mut ask));
    println!("{:<36}{:>10.0}", "sheet of 96 samples", median(times.collect()));
}

/// Letters and qualities as sequenced.
fn strand(rng: &mut Rng, length: usize) -> Columns {
    let mut columns = Columns::filled(length, 0);
    columns.bases.fill_with(|| rng.pick(b"ACGT"));
    columns.quals.fill_with(|| 20 + rng.below(26) as u8);
    columns.depths.fill_with(|| 1 + rng.below(8) as u16);
    columns.errors.fill_with(|| rng.below(2) as u16);
    columns
}

/// Two strands that agree at so many positions in a hundred.
fn pair(rng: &mut Rng, agreeing: usize) -> Pair {
    let (first, mut second) = (strand(rng, MAX_POSITIONS), strand(rng, MAX_POSITIONS));
    for (base, &other) in second.bases.iter_mut().zip(&first.bases) {
        let differing: Vec<u8> =
            b"ACGT".iter().copied().filter(|&letter| letter != other).collect();
        *base = if rng.chance(agreeing) { other } else { rng.pick(&differing) };
    }
    let limits = Limits { max_disagreements: u64::MAX, max_rate: 1.0 };
    Pair { first, second, limits }
}

fn report(bases: &str, pairs: &[Pair]) {
    let ready: Vec<_> = pairs.iter().map(original_call::ready).collect();
    let mut results = Columns::filled(MAX_POSITIONS, 0);
    let (mut exported, mut original) = (Vec::new(), Vec::new());
    for _ in 0..ROUNDS {
        exported.push(per_call(pairs, |pair| {
            let answer =
                combine(pair.first.strand(), pair.second.strand(), pair.limits, results.results());
            black_box((answer, &results));
        }));
        original.push(per_call(&ready, |call| drop(black_box(call.call()))));
    }
    let (exported, original) = (median(exported), median(original));
    println!("{bases:<36}{exported:>10.0}{original:>10.0}{:>8.2}", exported / original);
}

fn per_call<T>(inputs: &[T], mut call: impl FnMut(&T)) -> f64 {
    let start = Instant::now();
    inputs.iter().for_each(|input| call(black_box(input)));
    start.elapsed().as_nanos() as f64 / inputs.len() as f64
}

fn median(mut times: Vec<f64>) -> f64 {
    times.sort_by(f64::total_cmp);
    times[times.len() / 2]
}
