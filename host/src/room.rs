//! Room for the answers of a family, lent again at each call.

use crate::family::{LIST_PLACES, Lent, MARK_WORDS, Reason};
use crate::select::Marks;
use crate::{MAX_POSITIONS, Results, Strand};

/// About 39 kB by value: keep one for each thread, in a `Box` where the stack is small. Holds the answers of the last call.
#[derive(Clone, Debug)]
pub struct Room {
    duplex: Columns,
    r1: Columns,
    r2: Columns,
    listed: [u32; LIST_PLACES],
    reasons: [u8; LIST_PLACES],
    marks: Marks,
}

#[derive(Clone, Debug)]
struct Columns {
    bases: [u8; MAX_POSITIONS],
    quals: [u8; MAX_POSITIONS],
    depths: [u16; MAX_POSITIONS],
    errors: [u16; MAX_POSITIONS],
}

impl Room {
    pub const fn new() -> Self {
        Self {
            duplex: Columns::BLANK,
            r1: Columns::BLANK,
            r2: Columns::BLANK,
            listed: [0; LIST_PLACES],
            reasons: [0; LIST_PLACES],
            marks: [0; MARK_WORDS],
        }
    }

    /// Everything, for one call.
    pub fn lend(&mut self) -> Lent<'_> {
        Lent {
            duplex: self.duplex.lend(),
            r1: self.r1.lend(),
            r2: self.r2.lend(),
            listed: &mut self.listed,
            reasons: &mut self.reasons,
            marks: &mut self.marks,
        }
    }

    /// The duplex of a family that was called with this length.
    pub fn duplex(&self, length: usize) -> Strand<'_> {
        self.duplex.first(length)
    }

    /// R1's strand under it.
    pub fn r1(&self, length: usize) -> Strand<'_> {
        self.r1.first(length)
    }

    /// R2's strand under it.
    pub fn r2(&self, length: usize) -> Strand<'_> {
        self.r2.first(length)
    }

    /// The rejected records with their reasons, where the answer lists so many.
    pub fn rejects(&self, listed: usize) -> impl Iterator<Item = (usize, Reason)> + '_ {
        let pairs = self.listed.iter().zip(&self.reasons).take(listed);
        pairs.filter_map(|(&record, &number)| Some((record as usize, Reason::numbered(number)?)))
    }

    /// Whether a record was rejected, other than for the read cap.
    pub fn is_marked(&self, record: usize) -> bool {
        self.marks.get(record / 64).is_some_and(|word| word >> (record % 64) & 1 == 1)
    }

    pub fn marks(&self) -> &Marks {
        &self.marks
    }
}

impl Default for Room {
    fn default() -> Self {
        Self::new()
    }
}

impl Columns {
    const BLANK: Columns = Columns {
        bases: [0; MAX_POSITIONS],
        quals: [0; MAX_POSITIONS],
        depths: [0; MAX_POSITIONS],
        errors: [0; MAX_POSITIONS],
    };

    fn lend(&mut self) -> Results<'_> {
        Results {
            bases: &mut self.bases,
            quals: &mut self.quals,
            depths: &mut self.depths,
            errors: &mut self.errors,
        }
    }

    fn first(&self, length: usize) -> Strand<'_> {
        let length = length.min(MAX_POSITIONS);
        Strand {
            bases: &self.bases[..length],
            quals: &self.quals[..length],
            depths: &self.depths[..length],
            errors: &self.errors[..length],
        }
    }
}
