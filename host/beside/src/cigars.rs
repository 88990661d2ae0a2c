//! Random CIGARs, and both conversions held against the second reader, with every word of the output looked at.

use crate::rng::Rng;
use codec_host::{Refusal, extend_cigar, flatten_cigar};
use oracle::plain::conversion::{self, Converted};

/// Words behind the output.
const GUARD: usize = 32;

/// A plain list, mostly, with bases as many as it consumes, mostly, and the lengths of two outputs.
#[derive(Clone, Debug)]
pub struct Lists {
    pub words: Vec<u32>,
    pub read: Vec<u8>,
    pub reference: Vec<u8>,
    pub rooms: [usize; 2],
}

pub fn lists(rng: &mut Rng) -> Lists {
    let count = if rng.chance(90) { rng.below(12) } else { rng.pick(&[0, 63, 64, 65, 100]) };
    let mut words: Vec<u32> = (0..count).map(|_| word(rng)).collect();
    if rng.chance(10) {
        fill_up(rng, &mut words);
    }
    let [bases, under] = consumed(&words);
    let off = |rng: &mut Rng, length: usize| match rng.below(40) {
        0 => length + 1,
        1 => length.saturating_sub(1),
        _ => length,
    };
    let (bases, under) = (off(rng, bases), off(rng, under));
    let base = |rng: &mut Rng| rng.pick(b"ACGTNacgtn");
    let reference: Vec<u8> = (0..under).map(|_| base(rng)).collect();
    let mut read: Vec<u8> = (0..bases).map(|_| base(rng)).collect();
    // Mostly alike from some place on, so that runs are long and short.
    let shift = rng.below(3).min(read.len());
    read.iter_mut().skip(shift).zip(&reference).for_each(|(base, under)| {
        if rng.chance(70) {
            *base = *under;
        }
    });
    let rooms = [(); 2].map(|()| rng.pick(&[2_048, 2_048, 2_048, 2_049, 3_000, 2_047, 0]));
    Lists { words, read, reference, rooms }
}

fn word(rng: &mut Rng) -> u32 {
    let length = 1 + rng.below(30) as u32;
    let code = rng.pick(&[0, 0, 0, 0, 1, 2, 3, 4, 5, 6]);
    match rng.below(300) {
        0 => rng.draw() as u32,
        1 => code,
        2 => length * 16 + rng.pick(&[7, 8, 9, 15]),
        3 => ((1 << 28) - 1) * 16 + rng.pick(&[5, 6]),
        _ => length * 16 + code,
    }
}

/// Brings the read bases to their limit, or one above it.
fn fill_up(rng: &mut Rng, words: &mut Vec<u32>) {
    let most = rng.pick(&[1_023, 1_024, 1_025]);
    let left = most - consumed(words)[0].min(most - 1);
    words.push(left as u32 * 16 + rng.pick(&[0, 0, 1, 4]));
}

/// Read and reference bases, as far as a slice can have so many.
fn consumed(words: &[u32]) -> [usize; 2] {
    let sum = |codes: &[u32]| {
        let taken = words.iter().filter(|&&word| codes.contains(&(word % 16)));
        taken.map(|&word| (word / 16) as usize).sum::<usize>().min(4_000)
    };
    [sum(&[0, 1, 4, 7, 8]), sum(&[0, 2, 3, 7, 8])]
}

/// What a call writes into an output of so many words, or that it touched others.
fn asked(
    room: usize,
    call: impl Fn(&mut [u32]) -> Result<usize, Refusal>,
) -> Result<Converted, String> {
    let before: Vec<u32> =
        (0..(room + GUARD) as u32).map(|place| place.wrapping_mul(0x9e37_79b9)).collect();
    let mut cells = before.clone();
    let answer = call(&mut cells[..room]);
    let count = answer.unwrap_or(0);
    if count > room || cells[count..] != before[count..] {
        return Err(format!("{answer:?} touches words beyond it"));
    }
    match answer {
        Ok(count) => Ok(Ok(cells[..count].to_vec())),
        Err(Refusal { number, with: 0 }) => Ok(Err(number)),
        Err(refusal) => Err(format!("{refusal:?}")),
    }
}

fn equal(way: &str, found: &Converted, expected: &Converted) -> Result<(), String> {
    match found == expected {
        true => Ok(()),
        false => Err(format!("{way}: {found:?}, not {expected:?}")),
    }
}

/// There, and back from what that gave, or from the list itself; what it came to, or what is wrong.
pub fn held(lists: &Lists) -> Result<String, String> {
    let Lists { words, read, reference, rooms } = lists;
    let there = asked(rooms[0], |output| extend_cigar(words, read, reference, output))?;
    equal("there", &there, &conversion::extended(words, read, reference, rooms[0]))?;
    let given = there.as_ref().unwrap_or(words);
    let back = asked(rooms[1], |output| flatten_cigar(given, output))?;
    equal("back", &back, &conversion::plain(given, rooms[1]))?;
    if let (Ok(_), Ok(back)) = (&there, &back) {
        let joined = conversion::plain(words, rooms[1]);
        equal("there and back", &Ok(back.clone()), &joined)?;
    }
    let name = |way: &str, answer: &Converted| match answer {
        Ok(_) => format!("{way} given"),
        Err(number) => format!("{way} refused {number}"),
    };
    Ok(format!("{}, {}", name("there", &there), name("back", &back)))
}
