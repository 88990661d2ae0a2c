//! The text form of `vectors/FORMAT.md`, and of combining alone.

pub mod columns;
pub mod read;
pub mod table;
pub mod write;
