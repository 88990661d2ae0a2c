//! Plain and extended CIGARs: M, or = and X. A word is length × 16 + code, as in BAM.

use crate::family::Refusal;
use crate::sys;

/// Least words of a lent output.
pub const CIGAR_ROOM: usize = 2_048;

/// Writes the list with = and X in the place of M, by the read bases and the reference bases under the alignment, and gives
/// the number of its words. Refusals 24, 25 and 26; the output is then as it was.
pub fn extend_cigar(
    words: &[u32],
    read: &[u8],
    reference: &[u8],
    output: &mut [u32],
) -> Result<usize, Refusal> {
    // SAFETY: every pointer goes with its own slice's length, and `&mut` keeps the output apart.
    let answer = unsafe {
        sys::codec_ffi_extend_cigar(
            words.as_ptr(),
            words.len(),
            read.as_ptr(),
            read.len(),
            reference.as_ptr(),
            reference.len(),
            output.as_mut_ptr(),
            output.len(),
        )
    };
    answer.count()
}

/// Writes the list with M in the place of = and X, neighbouring M's joined, and gives the number of its words. Refusals 24, 25
/// and 26; the output is then as it was.
pub fn flatten_cigar(words: &[u32], output: &mut [u32]) -> Result<usize, Refusal> {
    // SAFETY: as in `extend_cigar`.
    let answer = unsafe {
        sys::codec_ffi_flatten_cigar(words.as_ptr(), words.len(), output.as_mut_ptr(), output.len())
    };
    answer.count()
}

impl sys::CigarAnswer {
    fn count(self) -> Result<usize, Refusal> {
        match self.kind {
            0 => Ok(self.count as usize),
            1 => Err(Refusal { number: self.number, with: self.with }),
            kind => unreachable!("the contract has kinds 0 and 1, this is {kind}"),
        }
    }
}
