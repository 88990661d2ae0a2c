//! Hands the exported calls noise and broken families, and looks at every answer and every place; then the ledger's rates, pairs of
//! counts beside 128-bit arithmetic: hostile [SEED [CALLS [PAIRS]]]

use beside::guarded::{Guarded, Room, Strand};
use beside::held::{self, Hosted};
use beside::noise::{self, Hostile};
use beside::rng::Rng;
use codec_host::text::family::Call;
use codec_host::{Answer, Ending, Ledger, Limits, Selection};
use oracle::generate::Calls;
use oracle::{model, shrink};
use std::cell::RefCell;
use std::collections::BTreeMap;
use std::process::ExitCode;

/// Calls by what they came to.
#[derive(Default)]
struct Tally {
    calls: usize,
    ends: BTreeMap<String, usize>,
}

impl Tally {
    fn add(&mut self, end: String) {
        self.calls += 1;
        *self.ends.entry(end).or_default() += 1;
    }
}

fn name_of(ending: Ending) -> String {
    match ending {
        Ending::Called { .. } => "family called".to_string(),
        Ending::Refused(refusal) => format!("family refused {}", refusal.number),
        Ending::Rejected(reason) => format!("family rejected {}", reason as u8),
        other => format!("family {other}"),
    }
}

fn ask_family(hostile: &Hostile, room: &RefCell<Room>, tally: &mut Tally) -> Result<(), String> {
    let found = held::family_call(hostile, &mut room.borrow_mut());
    match found {
        Ok(ending) => tally.add(name_of(ending)),
        Err(_) => return Err(smallest(hostile, room)),
    }
    let end = match held::selection(&hostile.family).map_err(|e| shown(hostile, &e))? {
        Selection::Kept { .. } => "select kept",
        Selection::Refused { .. } => "select refused",
        _ => "select ended",
    };
    tally.add(end.to_string());
    Ok(())
}

/// The hostile call cut down while the family call still differs, as text, with what differs.
fn smallest(hostile: &Hostile, room: &RefCell<Room>) -> String {
    let with = |call: &model::Call| {
        let mut books = model::Books { run: call.ledger.unwrap_or_default(), ..Default::default() };
        for (sample, ledger) in &call.sample_ledgers {
            books.samples[*sample as usize] = *ledger;
        }
        let (family, lengths) = (call.family.clone(), hostile.lengths);
        Hostile { family, sample: call.sample.unwrap_or(0), lengths, books }
    };
    let wrong = |call: &model::Call| {
        let hostile = with(call).settle();
        held::family_call(&hostile, &mut room.borrow_mut()).err()
    };
    let call = model::Call {
        ledger: Some(hostile.books.run),
        sample: Some(hostile.sample),
        sample_ledgers: set(hostile),
        family: hostile.family.clone(),
    };
    let small = shrink::smallest(&call, 20_000, |call| wrong(call).is_some());
    let difference = wrong(&small).unwrap_or_default();
    shown(&with(&small), &difference)
}

/// The samples whose ledgers are not fresh.
fn set(hostile: &Hostile) -> Vec<(u32, model::Ledger)> {
    let ledgers = (0..).zip(hostile.books.samples.iter().copied());
    ledgers.filter(|(_, ledger)| *ledger != model::Ledger::default()).collect()
}

fn shown(hostile: &Hostile, difference: &str) -> String {
    let Hosted { records, ops, options, strands } = Hosted::new(&hostile.family);
    let places = hostile.family.room.map(|places| places as usize);
    let ledger = Some(Ledger::from(hostile.books.run.0));
    let sample_ledgers = set(hostile).into_iter().map(|(at, ledger)| (at, ledger.0.into()));
    let (sample, sample_ledgers) = (Some(hostile.sample), sample_ledgers.collect());
    let call = Call { ledger, sample, sample_ledgers, records, ops, options, strands, places };
    format!("{call}lent: {:?}\n{difference}", hostile.lengths)
}

fn ask_combine(rng: &mut Rng, room: &mut Strand, tally: &mut Tally) -> Result<(), String> {
    let mut strands = [(); 2].map(|()| noise::strand(rng));
    if rng.chance(85) {
        strands[1] = fitted(rng, &strands[0]);
    }
    let length = strands[0].bases.len();
    let lengths = [(); 4].map(|()| match rng.below(12) {
        0 => length.saturating_sub(1),
        1 => length + 1,
        _ => length,
    });
    let limits = Limits { max_disagreements: rng.below(30) as u64, max_rate: noise::rate(rng) };
    let answer = held::combining(&strands, limits, lengths, room)
        .map_err(|e| format!("{strands:?}\n{limits:?}\nlent: {lengths:?}\n{e}"))?;
    let end = match answer {
        Answer::Duplex { .. } => "combine duplex",
        Answer::Refused { .. } => "combine refused",
        _ => "combine rejected",
    };
    tally.add(end.to_string());
    Ok(())
}

/// Another strand of the same lengths.
fn fitted(rng: &mut Rng, strand: &model::Strand) -> model::Strand {
    let mut other = strand.clone();
    other.bases.iter_mut().for_each(|base| *base = rng.pick(b"ACGTNn"));
    other.quals.iter_mut().for_each(|quality| *quality = rng.draw() as u8);
    other.depths.iter_mut().for_each(|depth| *depth = rng.draw() as u16);
    other
}

fn ask_rates(rng: &mut Rng, tally: &mut Tally) -> Result<(), String> {
    let mut counts = [(); 20].map(|()| rng.below(1 << 20) as u64);
    (0..rng.below(3)).for_each(|_| counts[rng.below(20)] = noise::count(rng));
    let good = held::rates(counts).map_err(|e| format!("G {counts:?}\n{e}"))?;
    tally.add(if good { "rates" } else { "rates refused" }.to_string());
    Ok(())
}

fn ask_sheet(rng: &mut Rng, buffer: &mut Guarded<u8>, tally: &mut Tally) -> Result<(), String> {
    let (ledgers, room) = (noise::ledgers(rng), noise::sheet_room(rng));
    let answer = held::sheets(&ledgers, room, buffer)
        .map_err(|e| format!("{ledgers:?}\nlent: {room}\n{e}"))?;
    tally.add(match answer {
        Ok(_) => "sheet".to_string(),
        Err(refusal) => format!("sheet refused {}", refusal.number),
    });
    Ok(())
}

fn ask_turns(rng: &mut Rng, tally: &mut Tally) -> Result<(), String> {
    let (lanes, lane) = noise::lanes(rng);
    let end = held::turns(lanes, lane).map_err(|e| format!("{lanes:?}\n{e}"))?;
    tally.add(end);
    Ok(())
}

/// Disagreements and duplex bases of up to 41 bits, and at the limit itself.
fn ask_millionths(rng: &mut Rng) -> Result<(), String> {
    const LIMIT: u64 = 1 << 41;
    let [disagreements, duplex_bases] = [(); 2].map(|()| match rng.below(20) {
        0 => LIMIT - rng.below(3) as u64,
        _ => rng.draw() >> (23 + rng.below(41)),
    });
    let ledger = Ledger { disagreements, duplex_bases, ..Ledger::default() };
    let expected = (u128::from(disagreements) * 1_000_000).checked_div(duplex_bases.into());
    let found = ledger.rates().map(|rates| u128::from(rates.millionths));
    if found != Ok(expected.unwrap_or(0)) {
        return Err(format!("{disagreements} of {duplex_bases}: {found:?}, not {expected:?}"));
    }
    Ok(())
}

fn run() -> Result<(), String> {
    let mut words = std::env::args().skip(1).map(|word| word.parse::<u64>());
    let mut number = |otherwise| words.next().unwrap_or(Ok(otherwise)).map_err(|e| e.to_string());
    let (seed, calls, pairs) = (number(1)?, number(1_000_000)? as usize, number(10_000_000)?);
    let mut rng = Rng::new(seed);
    let mut valid = Calls::new(seed).map(|call| call.family);
    let room = RefCell::new(Room::new());
    let mut results = Strand::new(9);
    let mut buffer = Guarded::of(noise::SHEET_MOST, |cell| cell as u8);
    let mut tally = Tally::default();
    while tally.calls < calls {
        let hostile = match rng.chance(30) {
            true => noise::noise(&mut rng),
            false => noise::broken(&mut rng, valid.next().expect("there is no end of them")),
        };
        ask_family(&hostile, &room, &mut tally)?;
        if rng.chance(30) {
            ask_combine(&mut rng, &mut results, &mut tally)?;
        }
        if rng.chance(10) {
            ask_rates(&mut rng, &mut tally)?;
        }
        if rng.chance(20) {
            ask_turns(&mut rng, &mut tally)?;
        }
        if rng.chance(10) {
            ask_sheet(&mut rng, &mut buffer, &mut tally)?;
        }
    }
    let ends: Vec<String> = tally.ends.iter().map(|(end, n)| format!("{end}: {n}")).collect();
    println!("{}", ends.join(", "));
    (0..pairs).try_for_each(|_| ask_millionths(&mut rng))?;
    println!("hostile, seed {seed}: {} calls, {pairs} rates: no difference", tally.calls);
    Ok(())
}

fn main() -> ExitCode {
    match run() {
        Ok(()) => ExitCode::SUCCESS,
        Err(difference) => {
            eprintln!("an exported call differs from document 01 on\n{difference}");
            ExitCode::FAILURE
        }
    }
}
