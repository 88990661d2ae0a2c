//! The original caller beside the port: answers, generated families, comparisons.

use oracle::answers::{Answerer, Form, written};
use oracle::model::Call;
use oracle::plain::Reader;
use oracle::plain::wrong::ALL;
use oracle::{bite, combine, compare, generate, partner, sample, sheet, text};
use std::io::{Read, Write};

const USAGE: &str = "usage, FORM being family or select:
  oracle answer FORM                     the original's answers to the families of standard input
  oracle plain FORM                      the plain reader's
  oracle sheet                           the samples' sheet after these families, by the original's counters
  oracle combine                         the original's answers to columns in the C form
  oracle table                           what duplex-table writes, combined by the original
  oracle generate SEED N                 N families
  oracle columns SEED N                  N positions as columns in the C form
  oracle sample SEED N                   a short list out of N families that covers everything but the samples
  oracle sample-named SEED N             a short list that covers these
  oracle bite SEED N                     how many of N families tell each wrong reading apart
  oracle bite-list                       the same for the families of standard input
  oracle misread NAME FORM               answers of the plain reader with one wrong reading
  oracle agree SEED N                    original and plain reader on N families
  oracle agree-columns SEED N            the same on N positions
  oracle against FORM PROGRAM SEED N     original and a program on N families
  oracle against-list FORM PROGRAM FILE  the same on the families of a file
  oracle against-columns PROGRAM SEED N  original and a program for the C form on N positions
  oracle against-table PROGRAM SEED N    original and duplex-table on N positions
  oracle against-sheet PROGRAM SEED N    sheets of the original's counters and a program's on N families
  oracle against-partner PROGRAM SEED N  second reader and check_table on N positions and broken copies of them";

fn main() {
    let words: Vec<String> = std::env::args().skip(1).collect();
    let words: Vec<&str> = words.iter().map(String::as_str).collect();
    let done = answer(&words).or_else(|| make(&words)).or_else(|| compare(&words));
    if let Err(message) = done.unwrap_or_else(|| Err(USAGE.to_string())) {
        eprintln!("{message}");
        std::process::exit(1);
    }
}

type Done = Option<Result<(), String>>;

/// Modes that answer standard input.
fn answer(words: &[&str]) -> Done {
    let blocks = |form, answerer: Answerer| {
        let calls = text::read::calls(&input());
        show(&answerer.blocks(form, &calls).concat())
    };
    Some(match words {
        ["answer", form] => blocks(Form::named(form)?, Answerer(None)),
        ["plain", form] => blocks(Form::named(form)?, Answerer(Some(Reader(None)))),
        ["misread", name, form] => {
            let (wrong, _) = ALL.iter().find(|(wrong, _)| format!("{wrong:?}") == *name)?;
            blocks(Form::named(form)?, Answerer(Some(Reader(Some(*wrong)))))
        }
        ["sheet"] => show(&sheet::answer(&text::read::calls(&input()))),
        ["bite-list"] => bite::report(text::read::calls(&input())),
        ["combine"] => {
            let pairs = text::columns::pairs(&input());
            show(&pairs.iter().map(combine::answer).collect::<String>())
        }
        ["table"] => show(&combine::table(&input())),
        _ => return None,
    })
}

/// Modes that make lists and reports out of a seed.
fn make(words: &[&str]) -> Done {
    let [mode, seed, n] = words else { return None };
    let (seed, n) = (seed.parse().ok()?, n.parse().ok()?);
    Some(match *mode {
        "generate" => show(&written(&generated(seed, n))),
        "columns" => {
            let mut out = String::new();
            let pairs = combine::generated(seed, n);
            pairs.iter().for_each(|pair| text::columns::write_pair(&mut out, pair));
            show(&out)
        }
        "sample" => show(&written(&sample::calls(seed, n))),
        "sample-named" => show(&written(&sample::named(seed, n))),
        "bite" => bite::report(generated(seed, n)),
        "agree" => compare::with_plain(seed, n),
        "agree-columns" => combine::with_plain(seed, n),
        _ => return None,
    })
}

/// Modes that run a program.
fn compare(words: &[&str]) -> Done {
    Some(match words {
        ["against", form, program, seed, n] => {
            let (seed, n) = (seed.parse().ok()?, n.parse().ok()?);
            compare::with_program_on(Form::named(form)?, program, seed, n)
        }
        ["against-list", form, program, file] => {
            let text = std::fs::read_to_string(file);
            let form = Form::named(form)?;
            text.map_err(|e| format!("{file}: {e}"))
                .and_then(|text| compare::with_program(form, program, &text::read::calls(&text)))
        }
        ["against-columns", program, seed, n] => {
            combine::with_program(program, seed.parse().ok()?, n.parse().ok()?)
        }
        ["against-table", program, seed, n] => {
            combine::with_table_program(program, seed.parse().ok()?, n.parse().ok()?)
        }
        ["against-sheet", program, seed, n] => {
            sheet::with_program(program, seed.parse().ok()?, n.parse().ok()?)
        }
        ["against-partner", program, seed, n] => {
            partner::with_program(program, seed.parse().ok()?, n.parse().ok()?)
        }
        _ => return None,
    })
}

fn generated(seed: u64, n: usize) -> Vec<Call> {
    generate::Named::new(seed).take(n).collect()
}

/// Bytes that are no text can only be malformed, and stay so.
fn input() -> String {
    let mut bytes = Vec::new();
    std::io::stdin().read_to_end(&mut bytes).expect("standard input can be read");
    String::from_utf8_lossy(&bytes).into_owned()
}

fn show(text: &str) -> Result<(), String> {
    std::io::stdout().write_all(text.as_bytes()).map_err(|e| e.to_string())
}
