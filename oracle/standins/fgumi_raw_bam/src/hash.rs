//! Rank of a read name. Document 01 hands the rank over with the record, so it is not hashed.

use std::cell::RefCell;
use std::collections::HashMap;
use std::sync::atomic::{AtomicBool, Ordering};

thread_local! {
    static RANKS: RefCell<HashMap<usize, i32>> = RefCell::new(HashMap::new());
}

/// A run that takes the time, and has no cap, leaves the ranks out.
static FORGETFUL: AtomicBool = AtomicBool::new(false);

pub fn forget_ranks() {
    FORGETFUL.store(true, Ordering::Relaxed);
}

/// Remembers the rank of the record whose name stands at this place in memory.
pub(crate) fn remember_rank(name: &[u8], rank: i32) {
    if FORGETFUL.load(Ordering::Relaxed) {
        return;
    }
    RANKS.with(|ranks| ranks.borrow_mut().insert(name.as_ptr() as usize, rank));
}

/// The rank of the record that lent this very name; equal names of two records stay apart.
pub fn fgbio_read_name_rank(name: &[u8]) -> i32 {
    RANKS.with(|ranks| ranks.borrow()[&(name.as_ptr() as usize)])
}
