//! Document 01's own cases as families: G1, F1, F2 and the P table.

use crate::model::{Call, Family, Options, Record, Strand};

/// Request 01's: two samples, a rejected family, and two refused ones that leave no trace.
pub fn named() -> Vec<Call> {
    let of = |bases: [&[u8; 10]; 2], minimum: u64, sample: u32| {
        let strand = |bases: &[u8; 10]| Strand {
            bases: bases.to_vec(),
            quals: vec![30; 10],
            depths: vec![3; 10],
            errors: vec![0; 10],
        };
        let pair: [Read<'_>; 2] = [(R1_FORWARD, 100, &[(10, M)]), (R2_REVERSE, 105, &[(10, M)])];
        let mut family = family(&[pair], bases.map(|bases| Some(strand(bases))));
        family.options.min_duplex_length = minimum;
        Call { sample: Some(sample), ..Call::new(family) }
    };
    let [one, same] = [[b"AAAAAAAAAC", b"TTTTTTTTTT"], [b"AAAAAAAAAA", b"TTTTTTTTTT"]];
    vec![of(one, 1, 3), of(same, 1, 95), of(same, 6, 95), of(one, 1, 96), of(one, 1 << 31, 3)]
}

/// A record's flags, position, and operations as length and code.
type Read<'a> = (u16, u32, &'a [(u32, u8)]);

const M: u8 = 0;
const I: u8 = 1;
const D: u8 = 2;

const R1_FORWARD: u16 = 1 + 64;
const R2_REVERSE: u16 = 1 + 16 + 128;

pub fn calls() -> Vec<Call> {
    let families = [vec![alignment_group()], windows(), vec![positions()]];
    families.concat().into_iter().map(Call::new).collect()
}

fn family(pairs: &[[Read<'_>; 2]], strands: [Option<Strand>; 2]) -> Family {
    let options = Options {
        min_reads: 1,
        cap: None,
        min_duplex_length: 1,
        legacy: false,
        outer_length: 0,
        outer_quality: None,
        single_strand_quality: None,
        max_disagreements: u64::MAX,
        max_rate: 1.0,
    };
    let room = [2_048, 512, 8];
    let mut family = Family { records: Vec::new(), words: Vec::new(), options, strands, room };
    for (name, pair) in pairs.iter().enumerate() {
        for (flags, position, operations) in pair {
            let start = family.words.len() as u32;
            family
                .words
                .extend(operations.iter().map(|(length, code)| length * 16 + u32::from(*code)));
            let reads = operations.iter().filter(|o| o.1 != D).map(|o| o.0);
            family.records.push(Record {
                flags: *flags,
                name: name as u32,
                verdict: true,
                rank: 0,
                clipped_length: reads.sum(),
                position: *position,
                start,
                count: operations.len() as u32,
            });
        }
    }
    family
}

/// G1: the second and third R1 stay.
fn alignment_group() -> Family {
    let ways: [&[(u32, u8)]; 3] = [&[(6, M), (2, D), (6, M)], &[(6, M), (1, I), (5, M)], &[(5, M)]];
    let mate: Read<'_> = (R2_REVERSE, 100, &[(5, M)]);
    let pairs = ways.map(|way| [(R1_FORWARD, 100, way), mate]);
    family(&pairs, [None, None])
}

/// F1 at minimum 5 and 6, F2 with the true and with the legacy window.
fn windows() -> Vec<Family> {
    let strand = || {
        Some(Strand {
            bases: b"ACGTACGTAC".to_vec(),
            quals: vec![30; 10],
            depths: vec![2; 10],
            errors: vec![0; 10],
        })
    };
    let of = |r1: u32, r2: u32, minimum: u64, legacy: bool| {
        let pair: [Read<'_>; 2] = [(R1_FORWARD, r1, &[(10, M)]), (R2_REVERSE, r2, &[(10, M)])];
        let mut family = family(&[pair], [strand(), strand()]);
        family.options.min_duplex_length = minimum;
        family.options.legacy = legacy;
        family
    };
    vec![
        of(100, 105, 5, false),
        of(100, 105, 6, false),
        of(105, 100, 1, false),
        of(105, 100, 1, true),
    ]
}

type Place = (u8, u8, u16, u16);

/// P1, P2, P4, P5, P8, P10, P11, P12, P13, one position each.
const POSITIONS: [[Place; 2]; 9] = [
    [(b'A', 30, 5, 1), (b'A', 20, 4, 0)],
    [(b'A', 30, 5, 1), (b'C', 20, 4, 1)],
    [(b'A', 20, 5, 2), (b'C', 20, 4, 1)],
    [(b'A', 1, 1, 0), (b'A', 1, 1, 0)],
    [(b'A', 2, 3, 0), (b'n', 0, 0, 0)],
    [(b'A', 30, 3, 1), (b'N', 2, 2, 0)],
    [(b'A', 30, 40_000, 40_000), (b'n', 0, 0, 0)],
    [(b'A', 30, 40_000, 20_000), (b'A', 30, 40_000, 20_000)],
    [(b'A', 30, 2, 3), (b'C', 20, 1, 4)],
];

fn positions() -> Family {
    let length = POSITIONS.len() as u32;
    let pair: [Read<'_>; 2] =
        [(R1_FORWARD, 100, &[(length, M)]), (R2_REVERSE, 100, &[(length, M)])];
    let mut strands = [Strand::default(), Strand::default()];
    for (side, strand) in strands.iter_mut().enumerate() {
        for place in POSITIONS.map(|places| places[side]) {
            strand.bases.push(place.0);
            strand.quals.push(place.1);
            strand.depths.push(place.2);
            strand.errors.push(place.3);
        }
    }
    // R2's strand is handed over as it was read.
    strands[1].turn();
    family(&[pair], strands.map(Some))
}
