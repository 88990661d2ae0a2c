//! The ledgers of a run's samples, and their sheet.

use crate::family::{Ledger, Refusal};
use crate::sys;

/// Samples of a run: their numbers are 0 to 95.
pub const SAMPLES: usize = 96;
/// Least bytes of a buffer for the sheet, however short the text.
pub const SHEET_ROOM: usize = 16_384;

const COUNTS: usize = 20;

/// A ledger for each sample, fresh by default; [`family`](crate::family) counts each call for the sample that it names.
/// About 15 kB by value: keep one for each run.
#[repr(transparent)]
#[derive(Clone, Debug, PartialEq, Eq)]
pub struct Samples([u64; SAMPLES * COUNTS]);

impl Samples {
    /// All counts 0.
    pub const fn new() -> Self {
        Self([0; SAMPLES * COUNTS])
    }

    /// The ledger of a sample, where it is one of the 96.
    pub fn ledger(&self, sample: u32) -> Option<Ledger> {
        let counts = self.0.as_chunks::<COUNTS>().0.get(sample as usize)?;
        Some(Ledger::from(*counts))
    }

    /// Puts a ledger in the place of a sample's, where it is one of the 96; gives the one that was there.
    pub fn replace(&mut self, sample: u32, ledger: Ledger) -> Option<Ledger> {
        let counts = self.0.as_chunks_mut::<COUNTS>().0.get_mut(sample as usize)?;
        Some(Ledger::from(std::mem::replace(counts, ledger.counts())))
    }

    /// All counts, sample by sample.
    pub fn counts(&self) -> &[u64; SAMPLES * COUNTS] {
        &self.0
    }

    pub(crate) fn counts_mut(&mut self) -> &mut [u64; SAMPLES * COUNTS] {
        &mut self.0
    }
}

impl Default for Samples {
    fn default() -> Self {
        Self::new()
    }
}

/// All counts, sample by sample.
impl From<[u64; SAMPLES * COUNTS]> for Samples {
    fn from(counts: [u64; SAMPLES * COUNTS]) -> Self {
        Self(counts)
    }
}

/// Writes the sheet into the first bytes of a buffer and gives their number; the rest stays as it is. Refusal 10 where a sample's
/// counts are none that calls can have led to, 21 where the buffer has less than [`SHEET_ROOM`] bytes: then nothing is written.
pub fn sheet(samples: &Samples, buffer: &mut [u8]) -> Result<usize, Refusal> {
    // SAFETY: the counts are as many as the call reads, the pointer goes with the buffer's length, and `&mut` keeps it apart.
    let answer =
        unsafe { sys::codec_ffi_sheet(samples.counts(), buffer.as_mut_ptr(), buffer.len()) };
    match answer {
        sys::SheetAnswer { number: 0, length } => Ok(length as usize),
        sys::SheetAnswer { number, .. } => Err(Refusal { number, with: 0 }),
    }
}
