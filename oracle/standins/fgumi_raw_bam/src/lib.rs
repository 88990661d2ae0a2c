//! Stand-in for `fgumi_raw_bam`: records as document 01 hands them over, and its CIGAR helpers.

mod builder;
mod cigar;
mod record;
mod tags;

pub mod flags;
pub mod hash;

pub use builder::UnmappedSamBuilder;
pub use cigar::{
    cigar_from_raw, clip_cigar_ops_raw, read_pos_at_ref_pos_raw, reference_length_from_cigar,
    simplify_cigar_from_raw,
};
pub use record::{
    Fields, RawRecord, RawRecordView, aux_data_slice, get_cigar_ops, is_primary_fr_pair_raw,
    num_bases_extending_past_mate_vs_mate_raw, read_name,
};
pub use tags::{SamTag, Tags, find_string_tag};
