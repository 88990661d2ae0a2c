//! A record: document 01's fields laid out as bytes, because the original passes bytes around.

use crate::hash::remember_rank;
use crate::tags::Tags;
use std::ops::Deref;

/// What document 01 says a record is; `operations` is its part of the family's words.
pub struct Fields<'a> {
    pub flags: u16,
    pub name: u32,
    pub verdict: bool,
    pub rank: i32,
    pub clipped_length: u32,
    pub position: u32,
    pub operations: &'a [u32],
}

const FLAGS: usize = 0;
const VERDICT: usize = 2;
const NAME: usize = 3;
const RANK: usize = 7;
const LENGTH: usize = 11;
const POSITION: usize = 15;
const OPERATIONS: usize = 19;

#[derive(Debug, Clone)]
pub struct RawRecord(Vec<u8>);

impl RawRecord {
    pub fn new(fields: &Fields<'_>) -> Self {
        let mut bytes = Vec::with_capacity(OPERATIONS + 4 * fields.operations.len());
        bytes.extend(fields.flags.to_le_bytes());
        bytes.push(u8::from(fields.verdict));
        bytes.extend(fields.name.to_le_bytes());
        bytes.extend(fields.rank.to_le_bytes());
        bytes.extend(fields.clipped_length.to_le_bytes());
        bytes.extend(fields.position.to_le_bytes());
        bytes.extend(fields.operations.iter().flat_map(|word| word.to_le_bytes()));
        Self(bytes)
    }

    pub fn into_inner(self) -> Vec<u8> {
        self.0
    }
}

impl Deref for RawRecord {
    type Target = [u8];

    fn deref(&self) -> &[u8] {
        &self.0
    }
}

impl AsRef<[u8]> for RawRecord {
    fn as_ref(&self) -> &[u8] {
        &self.0
    }
}

pub struct RawRecordView<'a>(&'a [u8]);

impl<'a> RawRecordView<'a> {
    pub fn new(raw: &'a [u8]) -> Self {
        Self(raw)
    }

    pub fn flags(&self) -> u16 {
        u16::from_le_bytes([self.0[FLAGS], self.0[FLAGS + 1]])
    }

    pub fn read_name(&self) -> &'a [u8] {
        read_name(self.0)
    }

    /// Clipping is left out, so this is already the length after clipping.
    pub fn l_seq(&self) -> u32 {
        word_at(self.0, LENGTH)
    }

    /// From 0, as in BAM; document 01 counts from 1.
    pub fn pos(&self) -> i32 {
        word_at(self.0, POSITION) as i32 - 1
    }

    pub fn ref_id(&self) -> i32 {
        0
    }

    /// Strand building is left out, so a read's own bases are never looked at.
    pub fn sequence_vec(&self) -> Vec<u8> {
        Vec::new()
    }

    pub fn quality_scores(&self) -> &'a [u8] {
        &[]
    }

    pub fn tags(&self) -> Tags {
        Tags
    }
}

fn word_at(raw: &[u8], at: usize) -> u32 {
    u32::from_le_bytes([raw[at], raw[at + 1], raw[at + 2], raw[at + 3]])
}

pub fn read_name(raw: &[u8]) -> &[u8] {
    let name = &raw[NAME..NAME + 4];
    remember_rank(name, word_at(raw, RANK) as i32);
    name
}

pub fn get_cigar_ops(raw: &[u8]) -> Vec<u32> {
    raw[OPERATIONS..].chunks_exact(4).map(|word| word_at(word, 0)).collect()
}

pub fn aux_data_slice(_raw: &[u8]) -> &[u8] {
    &[]
}

/// Document 01: the pair test is left out, the earlier record's verdict decides.
pub fn is_primary_fr_pair_raw(earlier: &[u8], _later: &[u8]) -> bool {
    earlier[VERDICT] == 1
}

/// Clipping is left out by document 01.
pub fn num_bases_extending_past_mate_vs_mate_raw(_record: &[u8], _mate: &[u8]) -> usize {
    0
}
