//! The check of a partner's table: the second reader, and the program held against it.

use crate::combine::{self, Pair};
use crate::generate::rng::Rng;
use crate::plain::Reader;
use crate::plain::position::place;
use crate::text::table;
use std::path::Path;
use std::process::Command;

const ACCEPTED: &str = "accepted";

/// One line, from document 02's words.
pub fn answer(ours: &str, theirs: &str) -> String {
    let [first, second] = match table::read(ours) {
        Ok(strands) => strands,
        Err(line) => return format!("refused 27 {line} 1"),
    };
    let given = match table::read_output(theirs) {
        Ok(given) => given,
        Err(line) => return format!("refused 27 {line} 2"),
    };
    if first.bases.len() != given.bases.len() {
        return "refused 28 0".to_string();
    }
    let right = Reader(None).combined(&first, &second);
    let wrong = |at: usize| {
        let (a, b) = (place(&right, at), place(&given, at));
        let field = [a.0 != b.0, a.1 != b.1, a.2 != b.2, a.3 != b.3].iter().position(|w| *w)?;
        Some(format!("wrong {} {}", at + 2, field + 1))
    };
    (0..given.bases.len()).find_map(wrong).unwrap_or(ACCEPTED.to_string())
}

/// Places of each table's text at which a byte is changed, deleted and doubled.
const PLACES: usize = 8;

/// The original's output with one byte changed, deleted and doubled, at places drawn from all of them.
fn broken(rng: &mut Rng, right: &[u8]) -> Vec<Vec<u8>> {
    let mut texts = Vec::new();
    for _ in 0..PLACES {
        let at = rng.index(right.len());
        let near = rng.pick(b"0123456789ACGTNn \n");
        let byte = if rng.chance(75) { near } else { rng.range(0, 255) as u8 };
        let mut changed = right.to_vec();
        changed[at] = if byte == right[at] { byte ^ 1 } else { byte };
        let mut deleted = right.to_vec();
        deleted.remove(at);
        let mut doubled = right.to_vec();
        doubled.insert(at, right[at]);
        texts.extend([changed, deleted, doubled]);
    }
    texts
}

/// What the program says of each text beside our table, in one run of it.
fn answers(
    program: &str,
    folder: &Path,
    ours: &str,
    texts: &[Vec<u8>],
) -> Result<Vec<String>, String> {
    let write = |name: String, text: &[u8]| {
        let file = folder.join(name);
        std::fs::write(&file, text).map(|()| file).map_err(|e| e.to_string())
    };
    let our_file = write("ours".to_string(), ours.as_bytes())?;
    let mut run = Command::new(program);
    for (number, text) in texts.iter().enumerate() {
        run.arg(&our_file).arg(write(number.to_string(), text)?);
    }
    let output = run.output().map_err(|e| format!("{program}: {e}"))?;
    let lines = String::from_utf8_lossy(&output.stdout).into_owned();
    Ok(lines
        .lines()
        .filter_map(|line| line.rsplit_once(": "))
        .map(|(_, said)| said.to_string())
        .collect())
}

/// Our tables with the original's output, which is accepted, and with broken copies of it, which never are.
pub fn with_program(program: &str, seed: u64, positions: usize) -> Result<(), String> {
    let folder = std::env::temp_dir().join(format!("oracle-partner-{}", std::process::id()));
    std::fs::create_dir_all(&folder).map_err(|e| e.to_string())?;
    let compared = compared(program, &folder, seed, combine::tables(seed, positions));
    std::fs::remove_dir_all(&folder).ok();
    compared
}

fn compared(program: &str, folder: &Path, seed: u64, pairs: Vec<Pair>) -> Result<(), String> {
    let mut rng = Rng::new(seed);
    let mut copies = 0;
    for pair in &pairs {
        let ours = table::write_input(&pair.strands);
        let right = combine::table(&ours).into_bytes();
        let mut texts = broken(&mut rng, &right);
        copies += texts.len();
        texts.insert(0, right);
        let found = answers(program, folder, &ours, &texts)?;
        for (at, text) in texts.iter().enumerate() {
            let theirs = String::from_utf8_lossy(text);
            let expected = answer(&ours, &theirs);
            let said = found.get(at).map_or("nothing", String::as_str);
            if said != expected || (said == ACCEPTED) != (at == 0) {
                return Err(format!(
                    "{program} says {said}, and not {expected}, of\n{ours}and\n{theirs}"
                ));
            }
        }
    }
    println!(
        "{program}: {} tables of seed {seed} with the original's output accepted, {copies} copies with a byte changed, deleted or doubled not: no difference",
        pairs.len()
    );
    Ok(())
}
