//! Writes family calls and their answers.

use crate::model::{Answer, Call, Ending, Family, Ledger, Marks, Refusal, Selection, Strand};
use std::fmt::{Display, Write};

pub fn numbers<N: Display>(out: &mut String, tag: &str, values: impl IntoIterator<Item = N>) {
    out.push_str(tag);
    for value in values {
        write!(out, " {value}").expect("a string takes all");
    }
    out.push('\n');
}

fn bases(out: &mut String, tag: &str, bases: &[u8]) {
    let space = if bases.is_empty() { "" } else { " " };
    let text = String::from_utf8_lossy(bases);
    writeln!(out, "{tag}{space}{text}").expect("a string takes all");
}

pub fn strand(out: &mut String, prefix: &str, columns: &Strand) {
    bases(out, &format!("{prefix}B"), &columns.bases);
    numbers(out, &format!("{prefix}Q"), &columns.quals);
    numbers(out, &format!("{prefix}D"), &columns.depths);
    numbers(out, &format!("{prefix}E"), &columns.errors);
}

pub fn call(out: &mut String, call: &Call) {
    if let Some(ledger) = &call.ledger {
        numbers(out, "G", ledger.0);
    }
    if let Some(sample) = call.sample {
        numbers(out, "N", [sample]);
    }
    for (sample, ledger) in &call.sample_ledgers {
        numbers(out, &format!("GS {sample}"), ledger.0);
    }
    head(out, &call.family);
    for r in &call.family.records {
        let verdict = u8::from(r.verdict);
        writeln!(
            out,
            "R {} {} {verdict} {} {} {} {} {}",
            r.flags, r.name, r.rank, r.clipped_length, r.position, r.start, r.count
        )
        .expect("a string takes all");
    }
    numbers(out, "O", &call.family.words);
    for columns in call.family.strands.iter().flatten() {
        strand(out, "", columns);
    }
}

fn or_none<N: Display>(value: Option<N>) -> String {
    value.map_or_else(|| "-".to_string(), |v| v.to_string())
}

fn head(out: &mut String, family: &Family) {
    let o = &family.options;
    let present = family.strands.each_ref().map(|strand| u8::from(strand.is_some()));
    writeln!(
        out,
        "F {} {} {} {} {} {} {} {} {} {} {} {} {} {} {} {}",
        family.records.len(),
        family.words.len(),
        o.min_reads,
        or_none(o.cap),
        o.min_duplex_length,
        u8::from(o.legacy),
        o.outer_length,
        or_none(o.outer_quality),
        or_none(o.single_strand_quality),
        o.max_disagreements,
        o.max_rate.to_bits(),
        present[0],
        present[1],
        family.room[0],
        family.room[1],
        family.room[2],
    )
    .expect("a string takes all");
}

fn marks(out: &mut String, tag: &str, words: &Marks) {
    numbers(out, tag, words);
}

/// The answer, the run's ledger after it, and that of the sample where one is named.
pub fn answer(
    out: &mut String,
    answer: &Result<Answer, Refusal>,
    run: &Ledger,
    named: Option<(u32, Ledger)>,
) {
    match answer {
        Err(Refusal(number, with)) => {
            numbers(out, &format!("A refused {number} {with}"), [0u8; 0]);
        }
        Ok(answer) => {
            out.push_str(&match &answer.ending {
                Ending::Called(columns) => format!("A called {}\n", columns[0].bases.len()),
                Ending::Empty => "A empty\n".to_string(),
                Ending::NoStrand => "A nostrand\n".to_string(),
                Ending::Rejected(reason) => format!("A rejected {reason}\n"),
            });
            numbers(
                out,
                "L",
                answer.list.iter().map(|(record, reason)| format!("{record}:{reason}")),
            );
            marks(out, "M", &answer.marks);
            if let Ending::Called(columns) = &answer.ending {
                for (prefix, columns) in ["D", "1", "2"].iter().zip(columns.iter()) {
                    strand(out, prefix, columns);
                }
            }
        }
    }
    numbers(out, "T", run.0);
    if let Some((sample, ledger)) = named {
        numbers(out, &format!("TS {sample}"), ledger.0);
    }
}

pub fn selection(out: &mut String, selection: &Result<Selection, Refusal>) {
    match selection {
        Err(Refusal(number, with)) => {
            numbers(out, &format!("S refused {number} {with}"), [0u8; 0]);
        }
        Ok(Selection::Empty) => out.push_str("S empty\n"),
        Ok(Selection::Rejected(reason)) => numbers(out, "S rejected", [reason]),
        Ok(Selection::Kept { window, length, r1_is_negative, kept }) => {
            let negative = i64::from(*r1_is_negative);
            numbers(out, "S kept", [window.0, window.1, *length as i64, negative]);
            marks(out, "K1", &kept[0]);
            marks(out, "K2", &kept[1]);
        }
    }
}
