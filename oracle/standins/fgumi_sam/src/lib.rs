//! Stand-in for `fgumi_sam`: the prefix rule of document 01; `rw` windows are left out.

pub mod clipper {
    pub mod cigar_utils {
        use noodles::sam::alignment::record::cigar::op::Kind;

        pub type SimplifiedCigar = Vec<(Kind, usize)>;

        /// Document 01, 'Prefix': all entries of `a` but the last are b's, the last may be shorter.
        pub fn is_cigar_prefix(a: &[(Kind, usize)], b: &[(Kind, usize)]) -> bool {
            let Some((last, front)) = a.split_last() else { return true };
            a.len() <= b.len()
                && *front == b[..front.len()]
                && last.0 == b[front.len()].0
                && last.1 <= b[front.len()].1
        }
    }
}

pub mod realign_window {
    use std::marker::PhantomData;

    /// Never made: no record here carries an `rw` tag.
    pub struct RealignWindow<'a> {
        pub reverse: bool,
        borrowed: PhantomData<&'a [u8]>,
    }

    impl<'a> RealignWindow<'a> {
        pub fn parse(_value: &'a [u8]) -> Result<Self, String> {
            Err("rw windows are left out".to_string())
        }

        pub fn union(&self, _other: &Self) -> Option<Self> {
            None
        }

        pub fn write(&self, _out: &mut Vec<u8>) {}
    }
}
