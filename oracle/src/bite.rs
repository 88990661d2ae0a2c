//! How well the generated families tell wrong readings apart.

use crate::answers::State;
use crate::callers::Callers;
use crate::driver;
use crate::model::{Answer, Books, Call, Ending, Refusal, Selection};
use crate::plain::Reader;
use crate::plain::wrong::{ALL, Wrong};

/// A call with the ledgers it meets and the original's answers.
pub struct Asked {
    pub call: Call,
    sample: u32,
    books: Books,
    family: Result<Answer, Refusal>,
    selection: Result<Selection, Refusal>,
}

impl Asked {
    /// Asked alone, with what its own lines set.
    pub fn alone(call: &Call) -> Self {
        Self::after(&mut State::default(), call)
    }

    /// Asked behind other calls; the ledgers are moved on.
    pub fn after(state: &mut State, call: &Call) -> Self {
        state.open(call);
        let (sample, books) = (state.sample(), state.books.clone());
        let family = driver::family_call(&call.family, sample, &books, &mut Callers::default());
        if let Ok(answer) = &family {
            state.books = answer.books.clone();
        }
        let selection = driver::selection(&call.family);
        Self { call: call.clone(), sample, books, family, selection }
    }

    /// The ending, with its reason or the refusal's number.
    pub fn ending(&self) -> String {
        match &self.family {
            Err(Refusal(number, _)) => format!("refused {number}"),
            Ok(answer) => match &answer.ending {
                Ending::Called(_) => "called".to_string(),
                other => format!("{other:?}"),
            },
        }
    }

    /// Whether the family call and selection alone show the slip.
    pub fn tells_apart(&self, wrong: Wrong) -> [bool; 2] {
        let reader = Reader(Some(wrong));
        [
            reader.family_call(&self.call.family, self.sample, &self.books) != self.family,
            reader.selection(&self.call.family) != self.selection,
        ]
    }
}

/// A line for each wrong reading; an error names those that no family shows.
pub fn report(calls: Vec<Call>) -> Result<(), String> {
    let families = calls.len();
    let mut counts = vec![[0usize; 2]; ALL.len()];
    let mut state = State::default();
    for call in &calls {
        let asked = Asked::after(&mut state, call);
        for (count, (wrong, _)) in counts.iter_mut().zip(ALL) {
            let [family, selection] = asked.tells_apart(*wrong);
            count[0] += usize::from(family);
            count[1] += usize::from(selection);
        }
    }
    println!("families that tell a wrong reading apart, of {families}");
    println!("{:>7} {:>7}  wrong reading", "family", "select");
    for (count, (_, slip)) in counts.iter().zip(ALL) {
        println!("{:>7} {:>7}  {slip}", count[0], count[1]);
    }
    let unseen = counts.iter().zip(ALL).filter(|(count, _)| count[0] == 0);
    let unseen: Vec<&str> = unseen.map(|(_, (_, slip))| *slip).collect();
    let told = ALL.len() - unseen.len();
    println!("{told} of {} wrong readings are told apart", ALL.len());
    if unseen.is_empty() { Ok(()) } else { Err(format!("not told apart: {}", unseen.join("; "))) }
}
