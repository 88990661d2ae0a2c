//! Holds answerers against the original, family by family.

use crate::answers::{Answerer, Form, State, run, split, written};
use crate::generate::Named;
use crate::model::Call;
use crate::plain::Reader;
use crate::shrink::smallest;
use std::collections::BTreeMap;

/// Runs of a program are slow beside calls within this one.
const TRIES_OF_PROGRAM: usize = 300;
const TRIES_WITHIN: usize = 20_000;

/// The plain reader on N generated families, in both forms.
pub fn with_plain(seed: u64, families: usize) -> Result<(), String> {
    let calls: Vec<Call> = Named::new(seed).take(families).collect();
    for form in [Form::Family, Form::Selection] {
        let expected = Answerer(None).blocks(form, &calls);
        let found = Answerer(Some(Reader(None))).blocks(form, &calls);
        let answer =
            |call: &Call| Answerer(Some(Reader(None))).block(form, call, &mut State::default());
        report(form, &calls, &expected, &found, TRIES_WITHIN, answer)?;
        if form == Form::Family {
            let mut endings = Endings::default();
            endings.count(&calls, &expected);
            endings.show();
        }
    }
    println!(
        "plain reader: {families} families of seed {seed}, family call and selection: no difference"
    );
    Ok(())
}

/// Generated families that a program is given at once: enough to make its start cheap, few enough to hold in memory.
const AT_ONCE: usize = 10_000;

/// A program on N generated families, part by part; each part begins with the ledgers that the one before left.
pub fn with_program_on(
    form: Form,
    program: &str,
    seed: u64,
    families: usize,
) -> Result<(), String> {
    let mut generated = Named::new(seed).take(families).peekable();
    let mut state = State::default();
    let mut endings = Endings::default();
    while generated.peek().is_some() {
        let mut calls: Vec<Call> = generated.by_ref().take(AT_ONCE).collect();
        calls[0] = state.met(&calls[0]);
        let expected = with_calls(form, program, &calls, &mut state)?;
        endings.count(&calls, &expected);
    }
    println!("{program}: {families} families of seed {seed}: no difference");
    endings.show();
    Ok(())
}

/// A program on the calls given.
pub fn with_program(form: Form, program: &str, calls: &[Call]) -> Result<(), String> {
    with_calls(form, program, calls, &mut State::default())?;
    println!("{program}: {} families: no difference", calls.len());
    Ok(())
}

/// The original's answers, which are the program's too.
fn with_calls(
    form: Form,
    program: &str,
    calls: &[Call],
    state: &mut State,
) -> Result<Vec<String>, String> {
    let expected = Answerer(None).blocks_from(state, form, calls);
    let found = split(form, &run(program, &written(calls))?);
    let answer =
        |call: &Call| run(program, &written(std::slice::from_ref(call))).unwrap_or_default();
    report(form, calls, &expected, &found, TRIES_OF_PROGRAM, answer)?;
    Ok(expected)
}

fn report(
    form: Form,
    calls: &[Call],
    expected: &[String],
    found: &[String],
    tries: usize,
    answer: impl Fn(&Call) -> String,
) -> Result<(), String> {
    let missing = String::new();
    let other = |at: usize| found.get(at).unwrap_or(&missing);
    let unlike: Vec<usize> = (0..calls.len()).filter(|&at| other(at) != &expected[at]).collect();
    let Some(&first) = unlike.first() else {
        let surplus = found.len() > expected.len();
        return if surplus { Err("more answers than families".to_string()) } else { Ok(()) };
    };
    let right = |call: &Call| Answerer(None).block(form, call, &mut State::default());
    let differs = |call: &Call| right(call) != answer(call);
    // After one wrong ledger all later ones are wrong too: look first where another line differs.
    let own = |at: &usize| without_ledger(&expected[*at]) != without_ledger(other(*at));
    let telling: Vec<usize> = unlike.iter().copied().filter(own).collect();
    let looked = if telling.is_empty() { unlike } else { telling };
    let call = shortest_alone(calls, looked, differs);
    let small = smallest(&call, tries, differs);
    Err(format!(
        "difference at family {} of the list\n{}cut down to:\n{}original:\n{}other:\n{}",
        first + 1,
        first_lines(&expected[first], other(first)),
        written(std::slice::from_ref(&small)),
        right(&small),
        answer(&small)
    ))
}

fn without_ledger(block: &str) -> Vec<&str> {
    block.lines().filter(|line| !line.starts_with("T ") && !line.starts_with("TS ")).collect()
}

/// The shortest of the families that differ also when asked alone, with the ledgers they met.
fn shortest_alone(calls: &[Call], mut unlike: Vec<usize>, differs: impl Fn(&Call) -> bool) -> Call {
    let mut state = State::default();
    let met: Vec<Call> = calls
        .iter()
        .map(|call| {
            let met = state.met(call);
            Answerer(None).block(Form::Family, call, &mut state);
            met
        })
        .collect();
    let first = unlike[0];
    unlike.sort_by_cached_key(|&at| written(&met[at..=at]).len());
    let alone = unlike.into_iter().take(50).find(|&at| differs(&met[at]));
    met[alone.unwrap_or(first)].clone()
}

fn first_lines(expected: &str, found: &str) -> String {
    let mut lines = expected.lines().zip(found.lines().chain(std::iter::repeat("(nothing)")));
    let pair = lines.find(|(right, other)| right != other);
    pair.map_or_else(
        || "(one is longer)\n".to_string(),
        |(a, b)| format!("original: {a}\nother:    {b}\n"),
    )
}

/// How many families end in which way, those that are called by the orientation of R1's and R2's longest.
#[derive(Default)]
struct Endings(BTreeMap<String, usize>);

impl Endings {
    fn count(&mut self, calls: &[Call], blocks: &[String]) {
        for (call, block) in calls.iter().zip(blocks) {
            *self.0.entry(ending(call, block)).or_default() += 1;
        }
    }

    fn show(&self) {
        let shown: Vec<String> = self.0.iter().map(|(way, n)| format!("{way}: {n}")).collect();
        println!("endings: {}", shown.join(", "));
    }
}

fn ending(call: &Call, block: &str) -> String {
    let line = block.lines().next().unwrap_or_default();
    let fields: Vec<&str> = line.split(' ').skip(1).collect();
    if !matches!(fields[0], "called" | "kept") {
        return fields[..fields.len().min(2)].join(" ");
    }
    let sign = |reverse: bool| if reverse { '-' } else { '+' };
    let chosen = Reader(None).chosen(&call.family);
    let signs: String = chosen.map(|c| c.reverse.map(sign)).iter().flatten().collect();
    format!("{} {signs}", fields[0])
}
