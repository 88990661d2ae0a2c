//! Answerers of family calls: the original, the plain reader, and programs run beside them.

use crate::callers::Callers;
use crate::driver;
use crate::model::{Books, Call, Ledger};
use crate::plain::Reader;
use crate::text;
use std::fs::File;
use std::path::Path;
use std::process::Command;

#[derive(Debug, Clone, Copy, PartialEq)]
pub enum Form {
    Family,
    Selection,
}

impl Form {
    pub fn named(name: &str) -> Option<Self> {
        match name {
            "family" => Some(Self::Family),
            "select" => Some(Self::Selection),
            _ => None,
        }
    }

    fn first_letter(self) -> &'static str {
        match self {
            Self::Family => "A ",
            Self::Selection => "S ",
        }
    }
}

/// What goes from call to call.
#[derive(Default)]
pub struct State {
    pub books: Books,
    /// The sample named last; until then calls are for sample 0.
    named: Option<u32>,
    callers: Callers,
}

impl State {
    /// The lines before a call.
    pub fn open(&mut self, call: &Call) {
        self.books.run = call.ledger.unwrap_or(self.books.run);
        self.named = call.sample.or(self.named);
        for (sample, ledger) in &call.sample_ledgers {
            self.books.samples[*sample as usize] = *ledger;
        }
    }

    pub fn sample(&self) -> u32 {
        self.named.unwrap_or(0)
    }

    /// The call with all that it meets here, so that it can be asked alone.
    pub fn met(&self, call: &Call) -> Call {
        let here = (0u32..).zip(self.books.samples.iter().copied());
        let mut sample_ledgers: Vec<(u32, Ledger)> =
            here.filter(|(_, ledger)| *ledger != Ledger::default()).collect();
        let set = |sample: u32| call.sample_ledgers.iter().any(|(other, _)| *other == sample);
        sample_ledgers.retain(|(sample, _)| !set(*sample));
        sample_ledgers.extend(&call.sample_ledgers);
        Call {
            ledger: call.ledger.or(Some(self.books.run)),
            sample: call.sample.or(self.named),
            sample_ledgers,
            family: call.family.clone(),
        }
    }

    /// The named sample, where it is one, with its ledger.
    fn named(&self) -> Option<(u32, Ledger)> {
        let sample = self.named?;
        Some((sample, *self.books.samples.get(sample as usize)?))
    }
}

/// Without a reader the original answers.
#[derive(Clone, Copy)]
pub struct Answerer(pub Option<Reader>);

impl Answerer {
    /// The lines of one answer; the ledgers are moved on.
    pub fn block(&self, form: Form, call: &Call, state: &mut State) -> String {
        let mut out = String::new();
        state.open(call);
        match form {
            Form::Selection => text::write::selection(
                &mut out,
                &match self.0 {
                    Some(reader) => reader.selection(&call.family),
                    None => driver::selection(&call.family),
                },
            ),
            Form::Family => {
                let (family, sample) = (&call.family, state.sample());
                let answer = match self.0 {
                    Some(reader) => reader.family_call(family, sample, &state.books),
                    None => driver::family_call(family, sample, &state.books, &mut state.callers),
                };
                if let Ok(answer) = &answer {
                    state.books = answer.books.clone();
                }
                text::write::answer(&mut out, &answer, &state.books.run, state.named());
            }
        }
        out
    }

    /// From fresh ledgers on.
    pub fn blocks(&self, form: Form, calls: &[Call]) -> Vec<String> {
        self.blocks_from(&mut State::default(), form, calls)
    }

    pub fn blocks_from(&self, state: &mut State, form: Form, calls: &[Call]) -> Vec<String> {
        calls.iter().map(|call| self.block(form, call, state)).collect()
    }
}

pub fn written(calls: &[Call]) -> String {
    let mut out = String::new();
    calls.iter().for_each(|call| text::write::call(&mut out, call));
    out
}

/// Runs a program on a text by way of a file, so that neither side waits for the other.
pub fn run(program: &str, input: &str) -> Result<String, String> {
    let file = std::env::temp_dir().join(format!("oracle-{}.in", std::process::id()));
    let answer = run_on(program, input, &file);
    std::fs::remove_file(&file).ok();
    answer
}

fn run_on(program: &str, input: &str, file: &Path) -> Result<String, String> {
    std::fs::write(file, input).map_err(|e| e.to_string())?;
    let input = File::open(file).map_err(|e| e.to_string())?;
    let output =
        Command::new(program).stdin(input).output().map_err(|e| format!("{program}: {e}"))?;
    Ok(String::from_utf8_lossy(&output.stdout).into_owned())
}

/// The blocks of a program's output, each with its first line.
pub fn split(form: Form, output: &str) -> Vec<String> {
    let mut blocks: Vec<String> = Vec::new();
    for line in output.split_inclusive('\n') {
        match blocks.last_mut() {
            Some(block) if !line.starts_with(form.first_letter()) => block.push_str(line),
            _ => blocks.push(line.to_string()),
        }
    }
    blocks
}
