//! The samples' sheet after a list of calls, by the original's counters, and the program held against it.

use crate::answers::{Answerer, Form, State, run, written};
use crate::generate::Named;
use crate::model::{Call, Refusal};
use crate::plain::Reader;

/// Room that is enough for every sheet.
const ROOM: usize = 16_384;

pub fn answer(calls: &[Call]) -> String {
    let mut state = State::default();
    Answerer(None).blocks_from(&mut state, Form::Family, calls);
    let sheet = Reader(None).sheet(&state.books.samples, ROOM);
    sheet.unwrap_or_else(|Refusal(number, with)| format!("refused {number} {with}\n"))
}

/// Families of one list: few enough that a ledger too large for the sheet is not in every one.
const AT_ONCE: usize = 100;

/// A program on N generated families, list by list.
pub fn with_program(program: &str, seed: u64, families: usize) -> Result<(), String> {
    let mut generated = Named::new(seed).take(families).peekable();
    let (mut sheets, mut lines) = (0, 0);
    while generated.peek().is_some() {
        let calls: Vec<Call> = generated.by_ref().take(AT_ONCE).collect();
        let expected = answer(&calls);
        let found = run(program, &written(&calls))?;
        if found != expected {
            let calls = written(&calls);
            return Err(format!("{calls}original's counters:\n{expected}{program}:\n{found}"));
        }
        sheets += usize::from(!expected.starts_with("refused"));
        lines += expected.lines().count();
    }
    println!(
        "{program}: {families} families of seed {seed}, {sheets} sheets, {lines} lines: no difference"
    );
    Ok(())
}
