//! Reads families in the form of `vectors/FORMAT.md` from standard input and writes the answer to each call.

use codec_host::text::family::{Books, answered, read};
use std::io::{BufWriter, Write, stdin, stdout};
use std::process::ExitCode;

fn run() -> Result<(), String> {
    let input = std::io::read_to_string(stdin()).map_err(|e| e.to_string())?;
    let mut out = BufWriter::new(stdout().lock());
    let mut books = Books::default();
    for call in read(&input)? {
        let text = answered(&call, &mut books)?;
        out.write_all(text.as_bytes()).map_err(|e| e.to_string())?;
    }
    out.flush().map_err(|e| e.to_string())
}

fn main() -> ExitCode {
    match run() {
        Ok(()) => ExitCode::SUCCESS,
        Err(message) => {
            eprintln!("{message}");
            ExitCode::FAILURE
        }
    }
}
