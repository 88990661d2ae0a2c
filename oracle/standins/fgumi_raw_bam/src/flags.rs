//! The flag bits of the SAM specification that the original reads.

pub const PAIRED: u16 = 1;
pub const UNMAPPED: u16 = 4;
pub const REVERSE: u16 = 16;
pub const FIRST_SEGMENT: u16 = 64;
pub const SECONDARY: u16 = 256;
pub const SUPPLEMENTARY: u16 = 2048;
