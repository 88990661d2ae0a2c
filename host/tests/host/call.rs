//! Columns as bytes, made of document 01's P cases in turn.

use codec_host::{Answer, Limits, Results, Strand, combine_bytes};

pub const REFUSED: Answer = Answer::Refused { number: 12, with: 0 };

/// Base, quality, depth, error.
pub type Position = (u8, u8, u16, u16);

/// First strand, second strand, duplex.
pub const P_TABLE: [[Position; 3]; 9] = [
    [(b'A', 30, 5, 1), (b'A', 20, 4, 0), (b'A', 50, 9, 1)],
    [(b'A', 30, 5, 1), (b'C', 20, 4, 1), (b'A', 10, 9, 4)],
    [(b'A', 20, 5, 2), (b'C', 20, 4, 1), (b'N', 2, 9, 5)],
    [(b'A', 1, 1, 0), (b'A', 1, 1, 0), (b'N', 2, 2, 0)],
    [(b'A', 2, 3, 0), (b'n', 0, 0, 0), (b'N', 2, 3, 0)],
    [(b'A', 30, 3, 1), (b'N', 2, 2, 0), (b'N', 2, 3, 1)],
    [(b'A', 30, 40_000, 40_000), (b'n', 0, 0, 0), (b'A', 30, 40_000, 40_000)],
    [(b'A', 30, 40_000, 20_000), (b'A', 30, 40_000, 20_000), (b'A', 60, 65_534, 32_767)],
    [(b'A', 30, 2, 3), (b'C', 20, 1, 4), (b'A', 10, 3, 3)],
];

/// Bases, qualities, depths, errors; the last two as byte pairs, low byte first.
pub type Columns = [Vec<u8>; 4];

pub fn columns(positions: &[Position]) -> Columns {
    let each = || positions.iter();
    [
        each().map(|p| p.0).collect(),
        each().map(|p| p.1).collect(),
        each().flat_map(|p| p.2.to_le_bytes()).collect(),
        each().flat_map(|p| p.3.to_le_bytes()).collect(),
    ]
}

/// Bytes that tell a column and a place in it apart from its neighbours.
pub fn marked(column: usize, length: usize) -> Vec<u8> {
    (0..length).map(|place| (place * 7 + column * 31 + 5) as u8).collect()
}

/// The four columns of the first strand, then of the second, and the four results.
#[derive(Clone, Debug, PartialEq)]
pub struct Call {
    pub strands: [Vec<u8>; 8],
    pub results: Columns,
}

impl Call {
    pub fn new(first: &[Position], second: &[Position]) -> Self {
        let mut strands = [const { Vec::new() }; 8];
        strands[..4].clone_from_slice(&columns(first));
        strands[4..].clone_from_slice(&columns(second));
        let length = first.len();
        let results =
            [marked(0, length), marked(1, length), marked(2, 2 * length), marked(3, 2 * length)];
        Self { strands, results }
    }

    /// So many positions, the P cases in turn.
    pub fn of_length(length: usize) -> Self {
        let [first, second, _] = [0, 1, 2].map(|strand| in_turn(strand, length));
        Self::new(&first, &second)
    }

    pub fn ask(&mut self, limits: Limits) -> Answer {
        let strand = |at: usize| Strand {
            bases: &self.strands[at],
            quals: &self.strands[at + 1],
            depths: &self.strands[at + 2],
            errors: &self.strands[at + 3],
        };
        let [bases, quals, depths, errors] = &mut self.results;
        combine_bytes(strand(0), strand(4), limits, Results { bases, quals, depths, errors })
    }

    /// The answer is this, and nothing was written.
    pub fn touches_nothing(mut self, limits: Limits, answer: Answer) {
        let before = self.clone();
        assert_eq!(self.ask(limits), answer);
        assert_eq!(self, before);
    }

    pub fn expect_refusal(self) {
        self.touches_nothing(Limits::NONE, REFUSED);
    }
}

/// One column of the P table, over and over.
pub fn in_turn(strand: usize, length: usize) -> Vec<Position> {
    P_TABLE.iter().map(|case| case[strand]).cycle().take(length).collect()
}

/// Tallies of so many positions of the P table.
pub fn tallies(length: usize) -> Answer {
    let cases = || P_TABLE.iter().cycle().take(length);
    let both = || cases().filter(|case| !b"Nn".contains(&case[1].0));
    let bases = both().count() as u32;
    let disagreements = both().filter(|case| case[0].0 != case[1].0).count() as u32;
    Answer::Duplex { bases, disagreements }
}
