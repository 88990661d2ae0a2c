//! Stand-in for `noodles`: the names the original mentions, and no reading or writing of files.

pub mod sam {
    pub use header::Header;

    pub mod alignment {
        pub mod record {
            pub mod cigar {
                pub mod op {
                    /// The operations of a CIGAR, in the order of their BAM codes.
                    #[derive(Debug, Clone, Copy, PartialEq, Eq)]
                    pub enum Kind {
                        Match,
                        Insertion,
                        Deletion,
                        Skip,
                        SoftClip,
                        HardClip,
                        Pad,
                        SequenceMatch,
                        SequenceMismatch,
                    }
                }
            }

            pub mod data {
                pub mod field {
                    #[derive(Debug, Clone, Copy, PartialEq, Eq, PartialOrd, Ord)]
                    pub struct Tag(pub [u8; 2]);

                    impl AsRef<[u8; 2]> for Tag {
                        fn as_ref(&self) -> &[u8; 2] {
                            &self.0
                        }
                    }
                }
            }
        }
    }

    pub mod header {
        use super::alignment::record::data::field::Tag;
        use std::collections::BTreeMap;

        /// Read groups by name; headers are never read here.
        #[derive(Default)]
        pub struct Header(BTreeMap<String, ReadGroup>);

        #[derive(Default)]
        pub struct ReadGroup(BTreeMap<Tag, String>);

        impl Header {
            pub fn read_groups(&self) -> &BTreeMap<String, ReadGroup> {
                &self.0
            }
        }

        impl ReadGroup {
            pub fn other_fields(&self) -> &BTreeMap<Tag, String> {
                &self.0
            }
        }

        pub mod record {
            pub mod value {
                pub mod map {
                    pub mod read_group {
                        pub mod tag {
                            use crate::sam::alignment::record::data::field::Tag;

                            pub const LIBRARY: Tag = Tag(*b"LB");
                        }
                    }
                }
            }
        }
    }
}
