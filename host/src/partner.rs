//! A check of a partner's table: their output table beside our input table.

use crate::sys;

/// Which of the two tables.
#[derive(Clone, Copy, Debug, PartialEq, Eq)]
pub enum Table {
    Ours,
    Theirs,
}

/// What the check says. Lines count from 1, the line of the names.
#[derive(Clone, Copy, Debug, PartialEq, Eq)]
pub enum Check {
    /// Every line of theirs is what the position rules give for ours.
    Accepted,
    /// The first wrong line and its first wrong field: 1 base, 2 quality, 3 depth, 4 error.
    Wrong { line: u64, field: u32 },
    /// Refusal 27: the first malformed line, of ours before any of theirs.
    Malformed { table: Table, line: u64 },
    /// Refusal 28: the tables have unequal numbers of lines.
    UnequalLines,
}

/// Accepts exactly where every line of their output table is what the position rules give for our input table. Neither slice has to
/// be text, and nothing is written.
pub fn check_table(ours: &[u8], theirs: &[u8]) -> Check {
    // SAFETY: two slices that are only read; numbers by value come back.
    let answer = unsafe {
        sys::codec_ffi_check_table(ours.as_ptr(), ours.len(), theirs.as_ptr(), theirs.len())
    };
    let line = answer.line;
    match (answer.kind, answer.number, answer.table) {
        (0, ..) => Check::Accepted,
        (1, ..) => Check::Wrong { line, field: answer.field },
        (2, 27, 1) => Check::Malformed { table: Table::Ours, line },
        (2, 27, 2) => Check::Malformed { table: Table::Theirs, line },
        (2, 28, _) => Check::UnequalLines,
        other => {
            unreachable!("the contract has kinds 0 to 2, refusals 27 and 28, this is {other:?}")
        }
    }
}
