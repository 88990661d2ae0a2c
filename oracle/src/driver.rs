//! Drives the original with a family and reads its answer off what it says and leaves behind.

use crate::callers::Callers;
use crate::model::{
    Answer, Books, Ending, Family, Marks, Options, Refusal, Selection, Strand, marks_of,
};
use crate::refusal;
use fgumi_raw_bam::{Fields, RawRecord};
use original::caller::RejectionReason;
use original::codec_caller::{CodecConsensusOptions, LastingCaller, Seen, call_family};
use original::trace::Columns;

/// Document 01's reasons 1 to 10.
pub const REASONS: [RejectionReason; 10] = [
    RejectionReason::FragmentRead,
    RejectionReason::NotPrimaryFrPair,
    RejectionReason::InsufficientReads,
    RejectionReason::MinorityAlignment,
    RejectionReason::Downsampled,
    RejectionReason::InsufficientOverlap,
    RejectionReason::IndelErrorBetweenStrands,
    RejectionReason::Dovetail,
    RejectionReason::ClipOverlapFailed,
    RejectionReason::HighDuplexDisagreement,
];

/// Reasons that end a family; 1, 2, 4 and 5 fall on single records.
const ENDING: [u8; 6] = [3, 6, 7, 8, 9, 10];

pub fn number(reason: RejectionReason) -> u8 {
    let at = REASONS.iter().position(|&known| known == reason);
    at.expect("the codec caller has these ten") as u8 + 1
}

/// The run's caller and the sample's are asked in turn, and give the same answer.
pub fn family_call(
    family: &Family,
    sample: u32,
    books: &Books,
    callers: &mut Callers,
) -> Result<Answer, Refusal> {
    let refused = refusal::of_sample(sample).or_else(|| refused_selection(family)).or_else(|| {
        let own = &books.samples[sample as usize];
        refusal::of_the_rest(family, [&books.run, own])
    });
    if let Some(refusal) = refused {
        return Err(refusal);
    }
    let (told, again, books) = callers.call(family, sample, books);
    assert_eq!(told, again, "the run's caller and the sample's");
    let Told { ending, list, marks } = told;
    Ok(Answer { ending, list, marks, books })
}

/// What one caller answers.
#[derive(Debug, PartialEq)]
pub struct Told {
    pub ending: Ending,
    pub list: Vec<(usize, u8)>,
    pub marks: Marks,
}

/// The answer of this caller, with what it left behind.
pub fn told(caller: &mut LastingCaller, family: &Family) -> (Told, Seen) {
    let seen = caller.call(options(&family.options), strands(family), &records(family));
    let list = list(&seen);
    assert!(list.windows(2).all(|pair| pair[0].0 < pair[1].0), "a record is rejected once");
    assert_eq!(seen.marks.len(), family.records.len());
    assert_eq!(matches!(seen.result, Ok(1)), seen.trace.columns.is_some());
    assert_eq!(seen.result.is_err(), list.iter().any(|(_, reason)| *reason == 10));
    let ending = ending(&seen, &list);
    let marks = marks_of(seen.marks.iter().enumerate().filter(|(_, m)| **m).map(|(i, _)| i));
    (Told { ending, list, marks }, seen)
}

/// Steps 1 to 7: with no strand to hand over the original goes exactly that far.
pub fn selection(family: &Family) -> Result<Selection, Refusal> {
    if let Some(refusal) = refused_selection(family) {
        return Err(refusal);
    }
    let seen = call_family(options(&family.options), [None, None], &records(family));
    if let Some(selected) = &seen.trace.selected {
        let (start, end) = selected.window;
        return Ok(Selection::Kept {
            window: (start as i64, end as i64),
            length: selected.length as u64,
            r1_is_negative: selected.r1_is_negative,
            kept: selected.kept.each_ref().map(|side| marks_of(side.iter().copied())),
        });
    }
    Ok(match ending(&seen, &list(&seen)) {
        Ending::Rejected(reason) => Selection::Rejected(reason),
        _ => Selection::Empty,
    })
}

fn refused_selection(family: &Family) -> Option<Refusal> {
    refusal::of_sizes(family).or_else(|| refusal::of_records(family, &entered(family)))
}

/// The entered records by the original's own pairing: those that an endless minimum sends away.
fn entered(family: &Family) -> Vec<usize> {
    let bare: Vec<RawRecord> = family
        .records
        .iter()
        .map(|r| raw(&Fields { position: 1, clipped_length: 0, ..fields(r, &[]) }))
        .collect();
    let endless = Options { min_reads: u64::MAX, ..family.options.clone() };
    let seen = call_family(options(&endless), [None, None], &bare);
    let sent_away = list(&seen).into_iter().filter(|(_, reason)| *reason == 3);
    sent_away.map(|(record, _)| record).collect()
}

fn fields<'a>(record: &crate::model::Record, operations: &'a [u32]) -> Fields<'a> {
    Fields {
        flags: record.flags,
        name: record.name,
        verdict: record.verdict,
        rank: record.rank,
        clipped_length: record.clipped_length,
        position: record.position,
        operations,
    }
}

fn raw(fields: &Fields<'_>) -> RawRecord {
    RawRecord::new(fields)
}

/// A record that is not entered may lie about its operations; the original never reads them.
fn records(family: &Family) -> Vec<RawRecord> {
    let each = family.records.iter();
    each.map(|r| raw(&fields(r, family.operations(r).unwrap_or(&[])))).collect()
}

fn options(options: &Options) -> CodecConsensusOptions {
    CodecConsensusOptions {
        min_reads_per_strand: options.min_reads as usize,
        max_reads_per_strand: options.cap.map(|cap| cap as usize),
        min_duplex_length: options.min_duplex_length as usize,
        legacy_overlap_window: options.legacy,
        single_strand_qual: options.single_strand_quality,
        outer_bases_qual: options.outer_quality,
        outer_bases_length: options.outer_length as usize,
        max_duplex_disagreements: options.max_disagreements as usize,
        max_duplex_disagreement_rate: options.max_rate,
        ..CodecConsensusOptions::default()
    }
}

fn strands(family: &Family) -> [Option<Columns>; 2] {
    family.strands.clone().map(|strand| strand.map(to_columns))
}

pub fn to_columns(strand: Strand) -> Columns {
    Columns {
        bases: strand.bases,
        quals: strand.quals,
        depths: strand.depths,
        errors: strand.errors,
    }
}

pub fn to_strand(columns: Columns) -> Strand {
    Strand {
        bases: columns.bases,
        quals: columns.quals,
        depths: columns.depths,
        errors: columns.errors,
    }
}

/// The original rejects in an order of its own; the list is by record.
fn list(seen: &Seen) -> Vec<(usize, u8)> {
    let rejected = seen.trace.rejected.iter();
    let mut list: Vec<_> = rejected.map(|&(record, reason)| (record, number(reason))).collect();
    list.sort_unstable();
    list
}

fn ending(seen: &Seen, list: &[(usize, u8)]) -> Ending {
    if let Some(columns) = seen.trace.columns.clone() {
        return Ending::Called(Box::new(columns.map(to_strand)));
    }
    if seen.trace.strand_absent {
        return Ending::NoStrand;
    }
    let reason = list.iter().map(|(_, reason)| *reason).find(|reason| ENDING.contains(reason));
    reason.map_or(Ending::Empty, Ending::Rejected)
}
