//! Refusals 1 to 11 from document 01's table and request 01's 20, tested before the original is asked.

use crate::model::{Family, Ledger, Record, Refusal, SAMPLES, Strand};

const REFERENCE_LIMIT: u64 = 536_870_911;

/// Whether a code consumes read and reference, by code; above 8 is refusal 4.
const TAKES: [(bool, bool); 9] = [
    (true, true),
    (true, false),
    (false, true),
    (false, true),
    (true, false),
    (false, false),
    (false, false),
    (true, true),
    (true, true),
];

/// Refusal 20, which comes before all others.
pub fn of_sample(sample: u32) -> Option<Refusal> {
    (sample >= SAMPLES).then_some(Refusal(20, 0))
}

/// Refusals 1 and 2, which come before any record is looked at.
pub fn of_sizes(family: &Family) -> Option<Refusal> {
    if family.options.min_duplex_length > 2_147_483_647 {
        return Some(Refusal(1, 0));
    }
    let too_many = family.records.len() > 512 || family.words.len() > 8_192;
    too_many.then_some(Refusal(2, 0))
}

/// Whether a record breaks a rule of the table.
type Rule = fn(&Family, &Record) -> bool;

/// Refusals 3 to 6 of the entered records, which stand in order of their number.
pub fn of_records(family: &Family, entered: &[usize]) -> Option<Refusal> {
    let rules: [(u8, Rule); 4] =
        [(3, bad_part), (4, bad_operation), (5, bad_length), (6, bad_place)];
    rules.iter().find_map(|(number, is_bad)| {
        let record = entered.iter().find(|&&record| is_bad(family, &family.records[record]))?;
        Some(Refusal(*number, *record as u64))
    })
}

fn bad_part(family: &Family, record: &Record) -> bool {
    record.count > 64 || family.operations(record).is_none()
}

fn operations<'a>(family: &'a Family, record: &Record) -> &'a [u32] {
    family.operations(record).expect("refusal 3 came first")
}

fn bad_operation(family: &Family, record: &Record) -> bool {
    operations(family, record).iter().any(|word| word % 16 > 8 || word / 16 == 0)
}

fn bases(words: &[u32], takes: impl Fn((bool, bool)) -> bool) -> u64 {
    let counted = words.iter().filter(|&&word| takes(TAKES[(word % 16) as usize]));
    counted.map(|word| u64::from(word / 16)).sum()
}

fn bad_length(family: &Family, record: &Record) -> bool {
    let read = bases(operations(family, record), |takes| takes.0);
    record.clipped_length > 1_024 || u64::from(record.clipped_length) != read
}

fn bad_place(family: &Family, record: &Record) -> bool {
    let position = u64::from(record.position);
    let reference = bases(operations(family, record), |takes| takes.1);
    position == 0 || position > REFERENCE_LIMIT || reference > REFERENCE_LIMIT
}

/// Refusals 7 to 11: strands present, room lent, the run's and the sample's ledger given.
pub fn of_the_rest(family: &Family, ledgers: [&Ledger; 2]) -> Option<Refusal> {
    let strand = |number, is_bad: fn(&Strand) -> bool| {
        let at = family.strands.iter().position(|s| s.as_ref().is_some_and(is_bad))?;
        Some(Refusal(number, at as u64))
    };
    let other = |number, is_bad: bool| is_bad.then_some(Refusal(number, 0));
    let [columns, list, marks] = family.room;
    let any = |is_bad: fn(&Ledger) -> bool| ledgers.into_iter().any(is_bad);
    strand(7, uneven)
        .or_else(|| strand(8, odd_base))
        .or_else(|| other(9, columns < 2_048 || list < 512 || marks < 8))
        .or_else(|| other(10, any(too_large)))
        .or_else(|| other(11, any(|ledger| ledger.0[Ledger::FAMILIES] == 1 << 28)))
}

fn too_large(ledger: &Ledger) -> bool {
    let [families, counts @ ..] = &ledger.0;
    *families > 1 << 28 || counts.iter().any(|&n| n > 1 << 41)
}

fn uneven(strand: &Strand) -> bool {
    let lengths = strand.lengths();
    lengths.iter().any(|&length| length != lengths[0] || length > 1_024)
}

fn odd_base(strand: &Strand) -> bool {
    strand.bases.iter().any(|base| !b"ACGTNn".contains(base))
}
