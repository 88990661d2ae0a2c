//! Stand-in for `fgumi_dna`: the shared constants, and document 01's reverse complement.

pub const MIN_PHRED: u8 = 2;
pub const NO_CALL_BASE: u8 = b'N';
pub const NO_CALL_BASE_LOWER: u8 = b'n';

pub mod dna {
    /// A with T, C with G; N and n stay. Other bytes never reach here: refusal 8.
    pub fn reverse_complement(bases: &[u8]) -> Vec<u8> {
        bases.iter().rev().map(|&base| complement(base)).collect()
    }

    fn complement(base: u8) -> u8 {
        match base {
            b'A' => b'T',
            b'T' => b'A',
            b'C' => b'G',
            b'G' => b'C',
            b'N' | b'n' => base,
            other => panic!("base {other} has no complement"),
        }
    }
}
