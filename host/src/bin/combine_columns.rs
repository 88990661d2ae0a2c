//! Reads pairs of strands in the form of `text` from standard input and writes the answer to each.

use codec_host::{Answer, text};
use std::io::{Write, stdin, stdout};

fn main() -> Result<(), String> {
    let input = std::io::read_to_string(stdin()).map_err(|e| e.to_string())?;
    let mut out = stdout().lock();
    for pair in text::read(&input)? {
        let (answer, duplex) = pair.combine();
        let written = match answer {
            Answer::Duplex { .. } => write!(out, "{answer}{duplex}"),
            _ => write!(out, "{answer}"),
        };
        written.map_err(|e| e.to_string())?;
    }
    Ok(())
}
