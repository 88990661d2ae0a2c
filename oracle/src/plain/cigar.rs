//! CIGAR operations: consumption, simplified lists, prefix, read position.

use super::Reader;
use super::wrong::Wrong;

/// Length and code; the natural order of such lists is document 01's order at a tie.
pub type Entry = (u64, u8);

pub fn entry(word: u32) -> Entry {
    (u64::from(word >> 4), (word & 15) as u8)
}

pub fn takes_read(code: u8) -> bool {
    matches!(code, 0 | 1 | 4 | 7 | 8)
}

pub fn takes_reference(code: u8) -> bool {
    matches!(code, 0 | 2 | 3 | 7 | 8)
}

pub fn reference_bases(words: &[u32]) -> u64 {
    words.iter().map(|&word| entry(word)).filter(|e| takes_reference(e.1)).map(|e| e.0).sum()
}

pub fn read_bases(words: &[u32]) -> u64 {
    words.iter().map(|&word| entry(word)).filter(|e| takes_read(e.1)).map(|e| e.0).sum()
}

impl Reader {
    pub(super) fn simplified(&self, words: &[u32], reverse: bool) -> Vec<Entry> {
        let mut list: Vec<Entry> = Vec::new();
        for &word in words {
            let (length, code) = entry(word);
            if code == 5 && self.misreads(Wrong::HardClipDropped) {
                continue;
            }
            let code = match code {
                4 | 5 => 0,
                7 | 8 if !self.misreads(Wrong::SequenceMatchKept) => 0,
                other => other,
            };
            match list.last_mut() {
                Some(last) if last.1 == code && !self.misreads(Wrong::NeighboursApart) => {
                    last.0 += length;
                    if self.misreads(Wrong::JoinedIn32Bits) {
                        last.0 &= u64::from(u32::MAX);
                    }
                }
                _ => list.push((length, code)),
            }
        }
        if reverse && !self.misreads(Wrong::NotReversed) {
            list.reverse();
        }
        list
    }

    pub(super) fn is_prefix(&self, a: &[Entry], b: &[Entry]) -> bool {
        if a.is_empty() {
            return true;
        }
        if a.len() > b.len() {
            return false;
        }
        let last = a.len() - 1;
        let length_fits = match self.0 {
            Some(Wrong::PrefixLastEqual) => a[last].0 == b[last].0,
            Some(Wrong::PrefixLastAny) => true,
            _ => a[last].0 <= b[last].0,
        };
        a[..last] == b[..last] && a[last].1 == b[last].1 && length_fits
    }

    /// From 1; a position in D or N has the last read base before it, if that is asked for and M, = or X came before.
    pub(super) fn read_position(
        &self,
        words: &[u32],
        start: i64,
        at: i64,
        last_base: bool,
    ) -> Option<i64> {
        let (mut reference, mut read, mut last) = (start, 0i64, None);
        let mut any = self.misreads(Wrong::LastBaseUnaligned);
        for &word in words {
            let (length, code) = entry(word);
            let length = length as i64;
            let inside = takes_reference(code) && (reference..reference + length).contains(&at);
            if inside && takes_read(code) {
                return Some(read + at - reference + 1);
            }
            if inside {
                return last.filter(|_| last_base);
            }
            if takes_reference(code) {
                reference += length;
            }
            if takes_read(code) && !(code == 4 && self.misreads(Wrong::SoftClipsUncounted)) {
                read += length;
            }
            any |= takes_read(code) && takes_reference(code);
            let left_out = match self.0 {
                Some(Wrong::LastBaseAligned) => !takes_reference(code),
                Some(Wrong::LastBaseUnclipped) => code == 4,
                _ => false,
            };
            if any && takes_read(code) && !left_out {
                last = Some(read);
            }
        }
        None
    }
}
