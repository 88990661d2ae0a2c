//! The two tables of the program duplex-table.

use crate::model::Strand;
use std::fmt::Write;

const NAMES_IN: &str = "BA QA DA EA BB QB DB EB";
const NAMES_OUT: &str = "BASE QUAL DEPTH ERR";
const MOST: usize = 2_048;

/// Base, quality, depth, error.
pub type Place = (u8, u8, u16, u16);

/// Both strands, or the number of the first malformed line.
pub fn read(text: &str) -> Result<[Strand; 2], usize> {
    let rows: Vec<[Place; 2]> = rows(text, NAMES_IN)?;
    Ok([0, 1].map(|side| strand(rows.iter().map(|row| row[side]))))
}

/// The positions of an output table, or the number of its first malformed line.
pub fn read_output(text: &str) -> Result<Strand, usize> {
    let rows: Vec<[Place; 1]> = rows(text, NAMES_OUT)?;
    Ok(strand(rows.into_iter().flatten()))
}

fn rows<const N: usize>(text: &str, names: &str) -> Result<Vec<[Place; N]>, usize> {
    let mut lines = text.split_inclusive('\n').enumerate();
    if lines.next().and_then(|(_, line)| line.strip_suffix('\n')) != Some(names) {
        return Err(1);
    }
    let row = |(index, line): (usize, &str)| {
        let places = line.strip_suffix('\n').and_then(positions).filter(|_| index <= MOST);
        places.ok_or(index + 1)
    };
    lines.map(row).collect()
}

fn strand(places: impl Iterator<Item = Place>) -> Strand {
    let mut strand = Strand::default();
    for (base, quality, depth, error) in places {
        strand.bases.push(base);
        strand.quals.push(quality);
        strand.depths.push(depth);
        strand.errors.push(error);
    }
    strand
}

fn positions<const N: usize>(line: &str) -> Option<[Place; N]> {
    let fields: Vec<&str> = line.split(' ').collect();
    let places: Option<Vec<Place>> = fields.chunks(4).map(place).collect();
    places?.try_into().ok()
}

fn place(fields: &[&str]) -> Option<Place> {
    if fields.len() != 4 {
        return None;
    }
    let base = fields[0].as_bytes();
    let known = base.len() == 1 && b"ACGTNn".contains(&base[0]);
    let quality = u8::try_from(decimal(fields[1])?).ok()?;
    let place = (*base.first()?, quality, decimal(fields[2])?, decimal(fields[3])?);
    known.then_some(place)
}

fn decimal(field: &str) -> Option<u16> {
    let digits = !field.is_empty() && field.bytes().all(|byte| byte.is_ascii_digit());
    let leading_zero = field.len() > 1 && field.starts_with('0');
    if digits && !leading_zero { field.parse().ok() } else { None }
}

pub fn write_input(strands: &[Strand; 2]) -> String {
    let mut out = format!("{NAMES_IN}\n");
    for at in 0..strands[0].bases.len() {
        let [a, b] = strands.each_ref().map(|strand| row(strand, at));
        writeln!(out, "{a} {b}").expect("a string takes all");
    }
    out
}

pub fn write_output(duplex: &Strand) -> String {
    let mut out = format!("{NAMES_OUT}\n");
    for at in 0..duplex.bases.len() {
        writeln!(out, "{}", row(duplex, at)).expect("a string takes all");
    }
    out
}

fn row(strand: &Strand, at: usize) -> String {
    let base = char::from(strand.bases[at]);
    format!("{base} {} {} {}", strand.quals[at], strand.depths[at], strand.errors[at])
}
