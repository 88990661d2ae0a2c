//! Plain and extended CIGARs: both ways, with their refusals.

use super::cigar::{entry, read_bases, reference_bases};

/// The words written, or the refusal's number.
pub type Converted = Result<Vec<u32>, u32>;

const M: u8 = 0;
const EQUAL: u8 = 7;
const X: u8 = 8;

fn is_operation(word: u32) -> bool {
    let (length, code) = entry(word);
    code <= X && length > 0
}

fn is_extended(word: u32) -> bool {
    matches!(entry(word).1, EQUAL | X)
}

fn word(length: usize, code: u8) -> u32 {
    (length as u32) << 4 | u32::from(code)
}

/// The way there, into an output of so many words.
pub fn extended(words: &[u32], read: &[u8], reference: &[u8], room: usize) -> Converted {
    if !words.iter().all(|&word| is_operation(word) && !is_extended(word)) {
        return Err(24);
    }
    let (consumed, under) = (read_bases(words), reference_bases(words));
    let fit = consumed == read.len() as u64 && under == reference.len() as u64;
    if words.len() > 64 || consumed > 1_024 || !fit {
        return Err(25);
    }
    if room < 2_048 {
        return Err(26);
    }
    let (mut read, mut reference) = (read, reference);
    let mut list = Vec::new();
    for &given in words {
        let (bases, under) = (read_bases(&[given]) as usize, reference_bases(&[given]) as usize);
        let (here, later) = read.split_at(bases);
        let (below, later_below) = reference.split_at(under);
        (read, reference) = (later, later_below);
        if entry(given).1 != M {
            list.push(given);
            continue;
        }
        let same: Vec<bool> = here.iter().zip(below).map(|(base, under)| base == under).collect();
        let runs = same.chunk_by(|a, b| a == b);
        list.extend(runs.map(|run| word(run.len(), if run[0] { EQUAL } else { X })));
    }
    Ok(list)
}

/// The way back, into an output of so many words.
pub fn plain(words: &[u32], room: usize) -> Converted {
    if !words.iter().all(|&word| is_operation(word)) {
        return Err(24);
    }
    if words.len() > 1_088 || read_bases(words) > 1_024 {
        return Err(25);
    }
    if room < 2_048 {
        return Err(26);
    }
    let is_m = |word: &u32| entry(*word).1 == M || is_extended(*word);
    let runs = words.chunk_by(|a, b| is_m(a) && is_m(b));
    let joined = |run: &[u32]| match is_m(&run[0]) {
        true => word(read_bases(run) as usize, M),
        false => run[0],
    };
    Ok(runs.map(joined).collect())
}
