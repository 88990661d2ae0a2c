//! Tags: named, never carried. UMI, `rw` and output tags are left out by document 01.

pub struct SamTag([u8; 2]);

impl SamTag {
    pub const MI: Self = Self(*b"MI");
    pub const RG: Self = Self(*b"RG");
    pub const RX: Self = Self(*b"RX");
    pub const RW: Self = Self(*b"rw");
    pub const CD: Self = Self(*b"cD");
    pub const CM: Self = Self(*b"cM");
    pub const CE: Self = Self(*b"cE");
    pub const AD: Self = Self(*b"aD");
    pub const AM: Self = Self(*b"aM");
    pub const AE: Self = Self(*b"aE");
    pub const BD: Self = Self(*b"bD");
    pub const BM: Self = Self(*b"bM");
    pub const BE: Self = Self(*b"bE");
    pub const AD_BASES: Self = Self(*b"ad");
    pub const BD_BASES: Self = Self(*b"bd");
    pub const AE_BASES: Self = Self(*b"ae");
    pub const BE_BASES: Self = Self(*b"be");
    pub const AC: Self = Self(*b"ac");
    pub const BC_BASES: Self = Self(*b"bc");
    pub const AQ: Self = Self(*b"aq");
    pub const BQ: Self = Self(*b"bq");
}

impl From<SamTag> for [u8; 2] {
    fn from(tag: SamTag) -> Self {
        tag.0
    }
}

pub struct Tags;

impl Tags {
    pub fn find_string(&self, _tag: impl Into<[u8; 2]>) -> Option<&'static [u8]> {
        None
    }
}

pub fn find_string_tag(_aux: &[u8], _tag: impl Into<[u8; 2]>) -> Option<&[u8]> {
    None
}
