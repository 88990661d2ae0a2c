//! The exported calls as the linker sees them: a slice is a pointer and a count.

use crate::dispatch::Dispatcher;
use crate::family::Ledger;
use crate::select::Record;

#[repr(C)]
pub struct CombineAnswer {
    pub kind: u32,
    pub refusal: u32,
    pub with: u32,
    pub bases: u32,
    pub disagreements: u32,
    pub rate: f64,
}

#[repr(C)]
pub struct Options {
    pub min_reads_per_strand: u64,
    pub has_max_reads_per_strand: bool,
    pub max_reads_per_strand: u64,
    pub min_duplex_length: u64,
    pub legacy_overlap_window: bool,
    pub outer_bases_length: u64,
    pub has_outer_bases_qual: bool,
    pub outer_bases_qual: u8,
    pub has_single_strand_qual: bool,
    pub single_strand_qual: u8,
    pub max_duplex_disagreements: u64,
    pub max_duplex_disagreement_rate: f64,
}

#[repr(C)]
pub struct SelectDecision {
    pub kind: u32,
    pub number: u32,
    pub with: u64,
    pub start: u64,
    pub end: u64,
    pub length: u64,
    pub r1_is_negative: bool,
    pub r2_is_negative: bool,
}

#[repr(C)]
pub struct SelectAnswer {
    pub decision: SelectDecision,
    pub r1: [u64; 8],
    pub r2: [u64; 8],
}

#[repr(C)]
pub struct RatesAnswer {
    pub kind: u32,
    pub number: u32,
    pub with: u64,
    pub filtered: u64,
    pub rate: f64,
    pub millionths: u64,
}

#[repr(C)]
pub struct FamilyEnding {
    pub kind: u32,
    pub number: u32,
    pub with: u64,
    pub length: u64,
}

#[repr(C)]
pub struct FamilyAnswer {
    pub ending: FamilyEnding,
    pub listed: u64,
    pub ledger: Ledger,
}

#[repr(C)]
pub struct SheetAnswer {
    pub number: u32,
    pub length: u64,
}

#[repr(C)]
pub struct DispatchAnswer {
    pub kind: u32,
    pub lane: u32,
    pub number: u32,
    pub with: u64,
    pub dispatcher: Dispatcher,
}

#[repr(C)]
pub struct CigarAnswer {
    pub kind: u32,
    pub number: u32,
    pub with: u64,
    pub count: u64,
}

#[repr(C)]
pub struct PartnerAnswer {
    pub kind: u32,
    pub number: u32,
    pub line: u64,
    pub field: u32,
    pub table: u32,
}

unsafe extern "C" {
    pub fn codec_ffi_check_table(
        ours: *const u8,
        ours_len: usize,
        theirs: *const u8,
        theirs_len: usize,
    ) -> PartnerAnswer;

    pub fn codec_ffi_fresh_dispatcher() -> Dispatcher;

    pub fn codec_ffi_add(dispatcher: Dispatcher, lane: u32) -> DispatchAnswer;

    pub fn codec_ffi_turn(dispatcher: Dispatcher) -> DispatchAnswer;

    pub fn codec_ffi_extend_cigar(
        words: *const u32,
        words_len: usize,
        read: *const u8,
        read_len: usize,
        reference: *const u8,
        reference_len: usize,
        output: *mut u32,
        output_len: usize,
    ) -> CigarAnswer;

    pub fn codec_ffi_flatten_cigar(
        words: *const u32,
        words_len: usize,
        output: *mut u32,
        output_len: usize,
    ) -> CigarAnswer;

    pub fn codec_ffi_select(
        records: *const Record,
        records_len: usize,
        ops: *const u32,
        ops_len: usize,
        options: Options,
    ) -> SelectAnswer;

    pub fn codec_ffi_combine(
        a_bases: *const u8,
        a_bases_len: usize,
        a_quals: *const u8,
        a_quals_len: usize,
        a_depths: *const u8,
        a_depths_len: usize,
        a_errors: *const u8,
        a_errors_len: usize,
        b_bases: *const u8,
        b_bases_len: usize,
        b_quals: *const u8,
        b_quals_len: usize,
        b_depths: *const u8,
        b_depths_len: usize,
        b_errors: *const u8,
        b_errors_len: usize,
        max_disagreements: u64,
        max_rate: f64,
        bases: *mut u8,
        bases_len: usize,
        quals: *mut u8,
        quals_len: usize,
        depths: *mut u8,
        depths_len: usize,
        errors: *mut u8,
        errors_len: usize,
    ) -> CombineAnswer;

    pub fn codec_ffi_rates(ledger: Ledger) -> RatesAnswer;

    pub fn codec_ffi_sheet(
        samples: *const [u64; 1_920],
        out: *mut u8,
        out_len: usize,
    ) -> SheetAnswer;

    pub fn codec_ffi_family(
        records: *const Record,
        records_len: usize,
        ops: *const u32,
        ops_len: usize,
        options: Options,
        has_r1: bool,
        r1_bases: *const u8,
        r1_bases_len: usize,
        r1_quals: *const u8,
        r1_quals_len: usize,
        r1_depths: *const u16,
        r1_depths_len: usize,
        r1_errors: *const u16,
        r1_errors_len: usize,
        has_r2: bool,
        r2_bases: *const u8,
        r2_bases_len: usize,
        r2_quals: *const u8,
        r2_quals_len: usize,
        r2_depths: *const u16,
        r2_depths_len: usize,
        r2_errors: *const u16,
        r2_errors_len: usize,
        ledger: Ledger,
        sample: u32,
        samples: *mut [u64; 1_920],
        d_bases: *mut u8,
        d_bases_len: usize,
        d_quals: *mut u8,
        d_quals_len: usize,
        d_depths: *mut u16,
        d_depths_len: usize,
        d_errors: *mut u16,
        d_errors_len: usize,
        s1_bases: *mut u8,
        s1_bases_len: usize,
        s1_quals: *mut u8,
        s1_quals_len: usize,
        s1_depths: *mut u16,
        s1_depths_len: usize,
        s1_errors: *mut u16,
        s1_errors_len: usize,
        s2_bases: *mut u8,
        s2_bases_len: usize,
        s2_quals: *mut u8,
        s2_quals_len: usize,
        s2_depths: *mut u16,
        s2_depths_len: usize,
        s2_errors: *mut u16,
        s2_errors_len: usize,
        listed: *mut u32,
        listed_len: usize,
        reasons: *mut u8,
        reasons_len: usize,
        marks: *mut u64,
        marks_len: usize,
    ) -> FamilyAnswer;
}
