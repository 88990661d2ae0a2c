//! The exported calls beside the original and beside the second reader of document 01.

pub mod cigars;
pub mod enumerated;
pub mod guarded;
pub mod held;
pub mod noise;
pub mod original_call;
pub mod random;
pub mod rng;
pub mod verdict;
