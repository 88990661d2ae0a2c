//! The exported calls held against the second reader of document 01, with every place looked at.

use crate::guarded::{Guarded, GuardedSamples, Room, Strand};
use crate::noise::Hostile;
use codec_host::text::Columns;
use codec_host::{
    Answer, Dispatcher, Ending, FamilyAnswer, Ledger, Limits, Options, Rates, Reason, Record,
    Refusal, Selection, Turn, combine, family, select, sheet,
};
use oracle::model;
use oracle::plain::Reader;
use oracle::plain::lanes::Lanes;
use oracle::plain::position::{Limit, tallies};
use original::codec_caller::CodecConsensusStats;

const READER: Reader = Reader(None);

/// A family in the host's terms.
pub struct Hosted {
    pub records: Vec<Record>,
    pub ops: Vec<u32>,
    pub options: Options,
    pub strands: [Option<Columns>; 2],
}

impl Hosted {
    pub fn new(family: &model::Family) -> Self {
        let o = &family.options;
        Self {
            records: family.records.iter().map(record).collect(),
            ops: family.words.clone(),
            options: Options {
                min_reads_per_strand: o.min_reads,
                max_reads_per_strand: o.cap,
                min_duplex_length: o.min_duplex_length,
                legacy_overlap_window: o.legacy,
                outer_bases_length: o.outer_length,
                outer_bases_qual: o.outer_quality,
                single_strand_qual: o.single_strand_quality,
                max_duplex_disagreements: o.max_disagreements,
                max_duplex_disagreement_rate: o.max_rate,
            },
            strands: family.strands.each_ref().map(|strand| strand.as_ref().map(columns)),
        }
    }
}

fn record(r: &model::Record) -> Record {
    Record {
        flags: r.flags,
        name: r.name,
        verdict: r.verdict,
        rank: r.rank,
        clipped: r.clipped_length,
        position: r.position,
        start: r.start,
        count: r.count,
    }
}

pub fn columns(strand: &model::Strand) -> Columns {
    let model::Strand { bases, quals, depths, errors } = strand.clone();
    Columns { bases, quals, depths, errors }
}

fn refusal(model::Refusal(number, with): model::Refusal) -> Refusal {
    Refusal { number: number.into(), with }
}

/// The ending that both give, or what is wrong.
pub fn family_call(hostile: &Hostile, room: &mut Room) -> Result<Ending, String> {
    let hosted = Hosted::new(&hostile.family);
    let again = Hosted::new(&hostile.family);
    let [r1, r2] = hosted.strands.each_ref().map(|strand| strand.as_ref().map(Columns::strand));
    let (books, sample) = (&hostile.books, hostile.sample);
    let ledger = Ledger::from(books.run.0);
    let mut samples = GuardedSamples::new(&books.samples);
    let found = {
        let Hosted { records, ops, options, .. } = &hosted;
        let (own, lent) = (&mut samples.lent, room.lend(&hostile.lengths));
        family(records, ops, options, r1, r2, ledger, sample, own, lent)
    };
    let lent_as_it_was = hosted.records == again.records
        && hosted.ops == again.ops
        && hosted.strands == again.strands;
    if !lent_as_it_was {
        return Err("the call wrote into what it reads".to_string());
    }
    match READER.family_call(&hostile.family, sample, books) {
        Err(refused) => {
            let answer =
                FamilyAnswer { ending: Ending::Refused(refusal(refused)), listed: 0, ledger };
            same(&found, &answer)?;
            untouched(room)?;
            touched(room.lists(&[], &[]), "list or marks")?;
            touched(samples.holds(&books.samples), "samples")?;
        }
        Ok(expected) => {
            let (ending, strands) = ending(&expected.ending);
            let listed = expected.list.len();
            same(&found, &FamilyAnswer { ending, listed, ledger: expected.books.run.0.into() })?;
            touched(samples.holds(&expected.books.samples), "samples")?;
            match strands {
                Some(strands) => {
                    for (lent, strand) in room.strands.iter().zip(strands) {
                        touched(lent.holds(strand), "columns")?;
                    }
                }
                None => untouched(room)?,
            }
            touched(room.lists(&expected.list, &expected.marks), "list or marks")?;
        }
    }
    Ok(found.ending)
}

fn ending(ending: &model::Ending) -> (Ending, Option<&[model::Strand; 3]>) {
    match ending {
        model::Ending::Called(strands) => {
            (Ending::Called { length: strands[0].bases.len() }, Some(strands))
        }
        model::Ending::Empty => (Ending::Empty, None),
        model::Ending::NoStrand => (Ending::NoStrand, None),
        model::Ending::Rejected(number) => {
            (Ending::Rejected(Reason::numbered(*number).expect("one of ten")), None)
        }
    }
}

fn same<T: PartialEq + std::fmt::Debug>(found: &T, expected: &T) -> Result<(), String> {
    if found == expected {
        return Ok(());
    }
    Err(format!("expected {expected:?}\nfound    {found:?}"))
}

fn touched(right: bool, what: &str) -> Result<(), String> {
    if right { Ok(()) } else { Err(format!("{what}: other values, or touched beyond the answer")) }
}

fn untouched(room: &Room) -> Result<(), String> {
    let nothing = model::Strand::default();
    touched(room.strands.iter().all(|strand| strand.holds(&nothing)), "columns")
}

/// Selection alone on the same family.
pub fn selection(family: &model::Family) -> Result<Selection, String> {
    let hosted = Hosted::new(family);
    let found = select(&hosted.records, &hosted.ops, &hosted.options);
    let expected = match READER.selection(family) {
        Err(refused) => {
            let Refusal { number, with } = refusal(refused);
            Selection::Refused { number, with }
        }
        Ok(model::Selection::Empty) => Selection::Empty,
        Ok(model::Selection::Rejected(reason)) => Selection::Rejected(reason.into()),
        Ok(model::Selection::Kept { window, length, r1_is_negative, kept }) => Selection::Kept {
            start: window.0 as u64,
            end: window.1 as u64,
            length,
            r1_is_negative,
            r2_is_negative: READER.chosen(family).is_some_and(|chosen| chosen.reverse[1]),
            r1: kept[0],
            r2: kept[1],
        },
    };
    same(&found, &expected)?;
    Ok(found)
}

/// Combining alone into results of these lengths.
pub fn combining(
    strands: &[model::Strand; 2],
    limits: Limits,
    lengths: [usize; 4],
    room: &mut Strand,
) -> Result<Answer, String> {
    let [first, second] = strands.each_ref().map(columns);
    let found = combine(first.strand(), second.strand(), limits, room.lend(lengths));
    let [a, b] = strands;
    let length = a.bases.len();
    let even = a.lengths().iter().chain(&b.lengths()).all(|&column| column == length);
    let fits = even && length <= 2_048 && lengths.iter().all(|&places| places >= length);
    let (expected, duplex) = if fits {
        combined(strands, limits)
    } else {
        (Answer::Refused { number: 12, with: 0 }, model::Strand::default())
    };
    same(&found, &expected)?;
    touched(room.holds(&duplex), "columns")?;
    Ok(found)
}

fn combined([a, b]: &[model::Strand; 2], limits: Limits) -> (Answer, model::Strand) {
    let options = model::Options {
        min_reads: 0,
        cap: None,
        min_duplex_length: 0,
        legacy: false,
        outer_length: 0,
        outer_quality: None,
        single_strand_quality: None,
        max_disagreements: limits.max_disagreements,
        max_rate: limits.max_rate,
    };
    let tally = tallies(a, b);
    let [bases, disagreements] = tally.map(|count| count as u32);
    match READER.limits(&options, tally, a.bases.len()) {
        None => (Answer::Duplex { bases, disagreements }, READER.combined(a, b)),
        Some(Limit::Count(_)) => {
            (Answer::DisagreementCount(disagreements), model::Strand::default())
        }
        Some(Limit::Rate(rate)) => (Answer::DisagreementRate(rate), model::Strand::default()),
    }
}

/// The ledger's rates, the rate by its bits and also the original's.
pub fn rates(counts: [u64; 20]) -> Result<bool, String> {
    let found = Ledger::from(counts).rates();
    let expected = READER.rates(&model::Ledger(counts)).map_err(refusal);
    let expected =
        expected.map(|r| Rates { filtered: r.filtered, rate: r.rate, millionths: r.millionths });
    same(&found, &expected)?;
    let bits = |rates: &Result<Rates, Refusal>| rates.map(|rates| rates.rate.to_bits());
    same(&bits(&found), &bits(&expected))?;
    let stats = CodecConsensusStats {
        consensus_duplex_bases_emitted: counts[model::Ledger::DUPLEX_BASES],
        duplex_disagreement_base_count: counts[model::Ledger::DISAGREEMENTS],
        ..CodecConsensusStats::default()
    };
    if let Ok(rates) = found {
        same(&rates.rate.to_bits(), &stats.duplex_disagreement_rate().to_bits())?;
    }
    Ok(found.is_ok())
}

/// The sheet of these ledgers in so many bytes; its length, or what is wrong.
pub fn sheets(
    ledgers: &[model::Ledger],
    room: usize,
    buffer: &mut Guarded<u8>,
) -> Result<Result<usize, Refusal>, String> {
    let samples = GuardedSamples::new(ledgers);
    let found = sheet(&samples.lent, buffer.lend(room));
    let expected = READER.sheet(ledgers, room).map_err(refusal);
    same(&found, &expected.as_ref().map(String::len).map_err(|refused| *refused))?;
    touched(samples.holds(ledgers), "samples")?;
    touched(buffer.holds(expected.unwrap_or_default().as_bytes()), "buffer")?;
    Ok(found)
}

/// An add and a turn of the same dispatcher; what the turn came to, or what is wrong.
pub fn turns(lanes: Lanes, lane: u32) -> Result<String, String> {
    let given = Dispatcher { waiting: lanes.waiting, last: lanes.last };
    let left = |d: Dispatcher| Lanes { waiting: d.waiting, last: d.last };
    let mut dispatcher = given;
    let found = dispatcher.add(lane);
    let expected = lanes.add(lane);
    let answer = expected.map(|_| ()).map_err(|number| Refusal { number, with: 0 });
    if (found, left(dispatcher)) != (answer, expected.unwrap_or(lanes)) {
        return Err(format!(
            "add {lane} answers {found:?} and leaves {dispatcher:?}, not {expected:?}"
        ));
    }
    let mut dispatcher = given;
    let found = dispatcher.turn();
    let expected = lanes.turn();
    let answer = match expected {
        Ok((served, _)) => Ok(served.map_or(Turn::Idle, |lane| Turn::Lane(lane as usize))),
        Err(number) => Err(Refusal { number, with: 0 }),
    };
    let after = expected.map_or(lanes, |(_, after)| after);
    if (found, left(dispatcher)) != (answer, after) {
        return Err(format!(
            "a turn answers {found:?} and leaves {dispatcher:?}, not {expected:?}"
        ));
    }
    Ok(match found {
        Ok(Turn::Lane(_)) => "turn served".to_string(),
        Ok(Turn::Idle) => "turn idle".to_string(),
        Err(refusal) => format!("turn refused {}", refusal.number),
    })
}
