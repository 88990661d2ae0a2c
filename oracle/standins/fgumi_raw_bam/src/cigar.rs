//! CIGAR helpers as document 01 defines them, 'CIGAR operations', the last base as request 07 does.

use noodles::sam::alignment::record::cigar::op::Kind;

/// Kind, and whether it consumes read and reference, by BAM code.
const OPERATIONS: [(Kind, bool, bool); 9] = [
    (Kind::Match, true, true),
    (Kind::Insertion, true, false),
    (Kind::Deletion, false, true),
    (Kind::Skip, false, true),
    (Kind::SoftClip, true, false),
    (Kind::HardClip, false, false),
    (Kind::Pad, false, false),
    (Kind::SequenceMatch, true, true),
    (Kind::SequenceMismatch, true, true),
];

fn length(word: u32) -> usize {
    (word / 16) as usize
}

fn operation(word: u32) -> (Kind, bool, bool) {
    OPERATIONS[(word % 16) as usize]
}

pub fn reference_length_from_cigar(words: &[u32]) -> i64 {
    words.iter().filter(|&&word| operation(word).2).map(|&word| length(word) as i64).sum()
}

/// Clipping is left out, so nothing is cut and no reference base is passed.
pub fn clip_cigar_ops_raw(words: &[u32], amount: usize, _from_start: bool) -> (Vec<u32>, usize) {
    assert_eq!(amount, 0, "clipping is left out");
    (words.to_vec(), 0)
}

pub fn cigar_from_raw(words: &[u32]) -> Vec<(Kind, usize)> {
    words.iter().map(|&word| (operation(word).0, length(word))).collect()
}

/// S, H, = and X become M, then neighbours of one kind join.
pub fn simplify_cigar_from_raw(words: &[u32]) -> Vec<(Kind, usize)> {
    let mut list: Vec<(Kind, usize)> = Vec::new();
    for (kind, length) in cigar_from_raw(words) {
        let kind = match kind {
            Kind::SoftClip | Kind::HardClip | Kind::SequenceMatch | Kind::SequenceMismatch => {
                Kind::Match
            }
            other => other,
        };
        match list.last_mut() {
            Some(last) if last.0 == kind => last.1 += length,
            _ => list.push((kind, length)),
        }
    }
    list
}

/// Read position, from 1, of a reference position; in D or N, if asked for, the last read base before it, or none if no M, = or X
/// came before.
pub fn read_pos_at_ref_pos_raw(
    words: &[u32],
    alignment_start: usize,
    ref_pos: usize,
    return_last_base_if_deleted: bool,
) -> Option<usize> {
    let mut reference = alignment_start;
    let mut read = 0;
    let mut aligned = false;
    for &word in words {
        let (_, takes_read, takes_reference) = operation(word);
        let inside = ref_pos >= reference && ref_pos - reference < length(word);
        if takes_reference && inside {
            return if takes_read {
                Some(read + (ref_pos - reference) + 1)
            } else {
                Some(read).filter(|_| return_last_base_if_deleted && aligned)
            };
        }
        read += if takes_read { length(word) } else { 0 };
        reference += if takes_reference { length(word) } else { 0 };
        aligned |= takes_read && takes_reference;
    }
    None
}
