//! What the trace lines in the original note down while one family is called.

use crate::caller::RejectionReason;
use std::cell::RefCell;
use std::sync::atomic::{AtomicBool, Ordering};

/// Four columns of equal length: a strand handed over, or a result.
#[derive(Debug, Clone, Default, PartialEq)]
pub struct Columns {
    pub bases: Vec<u8>,
    pub quals: Vec<u8>,
    pub depths: Vec<u16>,
    pub errors: Vec<u16>,
}

/// The state after step 7: kept records of R1 and R2, window, length, R1's orientation.
#[derive(Debug, Clone)]
pub struct Selected {
    pub kept: [Vec<usize>; 2],
    pub window: (usize, usize),
    pub length: usize,
    pub r1_is_negative: bool,
}

#[derive(Debug, Clone, Default)]
pub struct Trace {
    /// Record and reason, Downsampled included, in the order of the original's calls.
    pub rejected: Vec<(usize, RejectionReason)>,
    pub selected: Option<Selected>,
    pub strand_absent: bool,
    /// Duplex, R1's and R2's strand as they go into the output record.
    pub columns: Option<[Columns; 3]>,
}

/// A run that takes the time has nothing noted down.
static SILENT: AtomicBool = AtomicBool::new(false);

pub fn silence() {
    SILENT.store(true, Ordering::Relaxed);
}

pub(crate) fn is_silent() -> bool {
    SILENT.load(Ordering::Relaxed)
}

thread_local! {
    static TRACE: RefCell<Trace> = RefCell::new(Trace::default());
}

pub(crate) fn take() -> Trace {
    TRACE.with(RefCell::take)
}

pub(crate) fn note(write: impl FnOnce(&mut Trace)) {
    TRACE.with(|trace| write(&mut trace.borrow_mut()));
}

pub(crate) fn rejected(record: usize, reason: RejectionReason) {
    if is_silent() {
        return;
    }
    note(|trace| trace.rejected.push((record, reason)));
}

/// The cap counts without saying which: the records at places not kept are the ones.
pub(crate) fn capped(records: impl Iterator<Item = usize>, keep: &[usize]) {
    if is_silent() {
        return;
    }
    for (place, record) in records.enumerate() {
        if !keep.contains(&place) {
            rejected(record, RejectionReason::Downsampled);
        }
    }
}
