//! Records of a family: pairs over two stretches, and others beside them.

use super::alignment::{Alignment, Gap, I, S, gap, stretch};
use super::rng::Rng;
use crate::model::{Family, Options, Record};

const PAIRED: u16 = 1;
const REVERSE: u16 = 16;
const FIRST: u16 = 64;
const LAST: u16 = 128;

/// What the records of one family have in common.
struct Plan {
    /// Flag 16 of R1's and R2's reads.
    reverse: [bool; 2],
    /// Ways to align each side; the first is the commonest.
    ways: [Vec<Alignment>; 2],
    /// How often a read is cut at its far end, in a hundred.
    cuts: u64,
    /// The pairs take the ways in turn, so that groups come out equally large.
    in_turn: bool,
    tiny: bool,
    heavy_clips: bool,
    mixed_orientation: bool,
    shifted: bool,
    ranks: Vec<i32>,
}

pub fn family(rng: &mut Rng) -> Family {
    let mut plan = plan(rng);
    let mut family = Family {
        records: Vec::new(),
        words: Vec::new(),
        options: plain_options(),
        strands: [None, None],
        room: [2_048, 512, 8],
    };
    let most =
        [1, 2, 3, 4, 6, 12, 40, 256][rng.weighted(&[3000, 2500, 1500, 1500, 1000, 200, 30, 8])];
    let pairs = match rng.chance(2) {
        true => 0,
        false if most == 256 => most,
        false => rng.range(1, most),
    };
    // Many records of many words each would only ever be refusal 2.
    plan.heavy_clips &= pairs < 100;
    for _ in 0..pairs {
        add_pair(rng, &mut family, &plan);
    }
    if rng.chance(25) {
        for _ in 0..rng.range(1, 3) {
            add_other(rng, &mut family, &plan);
        }
    }
    if rng.chance(35) {
        rng.shuffle(&mut family.records);
    }
    family
}

fn plain_options() -> Options {
    Options {
        min_reads: 1,
        cap: None,
        min_duplex_length: 0,
        legacy: false,
        outer_length: 5,
        outer_quality: None,
        single_strand_quality: None,
        max_disagreements: u64::MAX,
        max_rate: 1.0,
    }
}

fn plan(rng: &mut Rng) -> Plan {
    let r1_reverse = rng.chance(50);
    let r2_reverse = if rng.chance(85) { !r1_reverse } else { r1_reverse };
    let (positive, negative) = stretches(rng);
    let edges = [positive.0, positive.1, negative.0, negative.1];
    let shared = gaps(rng, 18, &edges);
    let sides = if r1_reverse { [negative, positive] } else { [positive, negative] };
    let ways = sides.map(|side| ways(rng, side, &shared, &edges));
    let ranks = match rng.chance(60) {
        true => vec![-1, 0, 1, i32::MIN, i32::MAX],
        false => (0..8).map(|_| rng.draw() as i32).collect(),
    };
    Plan {
        reverse: [r1_reverse, r2_reverse],
        ways,
        cuts: rng.pick(&[3, 8, 30]),
        in_turn: rng.chance(6),
        tiny: rng.chance(6),
        heavy_clips: rng.chance(3),
        mixed_orientation: rng.chance(6),
        shifted: rng.chance(12),
        ranks,
    }
}

type Stretch = (i64, i64);

/// First and last reference base of the positive and of the negative side.
fn stretches(rng: &mut Rng) -> (Stretch, Stretch) {
    let longest = [8, 20, 40, 150, 1_024][rng.weighted(&[300, 450, 200, 40, 6])];
    let origin = [20, 1_000, 536_870_000][rng.weighted(&[40, 50, 10])];
    let lengths = [(); 2].map(|()| rng.range(1 + longest / 4, longest) as i64);
    let [long, short] = [lengths[0].max(lengths[1]), lengths[0].min(lengths[1])];
    let behind = rng.range(0, long as u64 * 6 / 10) as i64;
    match rng.weighted(&[60, 28, 10, 2]) {
        0 => ((origin, origin + long - 1), (origin + behind, origin + behind + long - 1)),
        1 => {
            let inner = origin + rng.range(0, (long - short) as u64) as i64;
            let pair = [(origin, origin + long - 1), (inner, inner + short - 1)];
            if rng.chance(50) { (pair[0], pair[1]) } else { (pair[1], pair[0]) }
        }
        2 => ((origin + behind, origin + behind + long - 1), (origin, origin + short - 1)),
        _ => {
            let apart = origin + long + rng.range(0, 2) as i64;
            ((origin, origin + long - 1), (apart, apart + short - 1))
        }
    }
}

/// Gaps near the edges, some with read bases right before them.
fn gaps(rng: &mut Rng, percent: u64, near: &[i64]) -> Vec<Gap> {
    let mut gaps = Vec::new();
    while rng.chance(percent) && gaps.len() < 4 {
        let first = gap(rng, near);
        if rng.chance(25) {
            let inserted = rng.pick(&[I, S]);
            gaps.push(Gap { operation: (rng.range(1, 3) as u32, inserted), ..first });
        }
        gaps.push(first);
    }
    gaps
}

fn ways(rng: &mut Rng, side: Stretch, shared: &[Gap], edges: &[i64; 4]) -> Vec<Alignment> {
    let middle = [(side.0 + side.1) / 2, edges[0], edges[1], edges[2], edges[3]];
    let own = gaps(rng, 5, &middle);
    let with = |more: Vec<Gap>| [shared, &own, &more].concat();
    let mut ways = vec![stretch(side.0, side.1, &with(Vec::new()))];
    let mut extra = gap(rng, &middle[..1]);
    while ways.len() < 4 && rng.chance(40) {
        ways.push(stretch(side.0, side.1, &with(vec![extra])));
        let another = gap(rng, &middle[..1]);
        let twin = Gap { operation: (extra.operation.0, another.operation.1), ..extra };
        extra = if rng.chance(60) { twin } else { another };
    }
    for way in &mut ways {
        while rng.chance(20) {
            way.rewrite(rng);
        }
    }
    ways
}

fn alignment(rng: &mut Rng, plan: &Plan, turn: usize, side: usize, reverse: bool) -> Alignment {
    let ways = &plan.ways[side];
    if plan.tiny && rng.chance(80) {
        let position = ways[0].position + rng.range(0, 1) as i64;
        return Alignment::tiny(rng, position);
    }
    let way = match plan.in_turn {
        true => turn % ways.len(),
        false if rng.chance(65) => 0,
        false => rng.index(ways.len()),
    };
    let mut alignment = ways[way].clone();
    let bases = alignment.read_bases();
    if bases > 1 && rng.chance(plan.cuts) {
        let most = if rng.chance(60) { bases.min(5) } else { bases };
        let most = if rng.chance(3) { bases } else { most - 1 };
        alignment.cut(rng.range(1, most) as u32, reverse);
    }
    if rng.chance(12) {
        alignment.rewrite(rng);
    }
    if plan.heavy_clips {
        alignment.hard_clip_heavily(rng);
    }
    if plan.shifted && rng.chance(40) {
        alignment.position += rng.range(0, 4) as i64 - 2;
    }
    alignment
}

fn add_pair(rng: &mut Rng, family: &mut Family, plan: &Plan) {
    let name = fresh_name(rng, family);
    let verdict = !rng.chance(1);
    let rank = rng.pick(&plan.ranks);
    let mut pair: Vec<Record> = Vec::new();
    for side in 0..2 {
        let flipped = plan.mixed_orientation && rng.chance(30);
        let reverse = plan.reverse[side] != flipped;
        let alignment = alignment(rng, plan, family.records.len() / 2, side, reverse);
        let mut flags = PAIRED | if side == 0 { FIRST } else { LAST };
        flags |= if reverse { REVERSE } else { 0 };
        flags ^= if rng.chance(3) { FIRST } else { 0 };
        flags |= rng.pick(&[0, 0, 2, 4, 8, 32, 512, 1_024, 0x8000]);
        let (start, count) = place(rng, family, &alignment);
        pair.push(Record {
            flags,
            name,
            verdict: verdict != rng.chance(2),
            rank: if rng.chance(80) { rank } else { rng.pick(&plan.ranks) },
            clipped_length: alignment.read_bases() as u32,
            position: alignment.position.clamp(1, 536_870_911) as u32,
            start,
            count,
        });
    }
    if rng.chance(40) {
        pair.reverse();
    }
    family.records.extend(pair);
}

fn fresh_name(rng: &mut Rng, family: &Family) -> u32 {
    loop {
        let name = if rng.chance(95) { rng.range(0, 2_000) as u32 } else { rng.draw() as u32 };
        if family.records.iter().all(|record| record.name != name) {
            return name;
        }
    }
}

/// Writes the operations behind the words so far, or finds them there already.
fn place(rng: &mut Rng, family: &mut Family, alignment: &Alignment) -> (u32, u32) {
    let words: Vec<u32> = alignment.operations.iter().map(|o| o.0 * 16 + u32::from(o.1)).collect();
    let count = words.len() as u32;
    if !words.is_empty() && rng.chance(40) {
        let found = family.words.windows(words.len()).position(|part| part == words);
        if let Some(start) = found {
            return (start as u32, count);
        }
    }
    while rng.chance(12) {
        let word = rng.draw() as u32;
        family.words.push(word);
    }
    let start = family.words.len() as u32;
    family.words.extend(words);
    (start, count)
}

/// A record that enters no pair: unpaired, secondary, third of its name, or alone.
fn add_other(rng: &mut Rng, family: &mut Family, plan: &Plan) {
    let known = !family.records.is_empty() && rng.chance(70);
    let name = match known {
        true => family.records[rng.index(family.records.len())].name,
        false => fresh_name(rng, family),
    };
    let beside = rng.pick(&[256, 2_048, 2_304]);
    let flags = match rng.weighted(&[25, 15, 45, 15]) {
        0 => 0,
        1 => beside,
        2 => PAIRED | beside,
        _ => PAIRED,
    };
    let side = rng.index(2);
    let alignment = alignment(rng, plan, 0, side, false);
    let (start, count) = place(rng, family, &alignment);
    let honest = rng.chance(50);
    let record = Record {
        flags: flags | rng.pick(&[0, FIRST, LAST, REVERSE]),
        name,
        verdict: rng.chance(80),
        rank: rng.pick(&plan.ranks),
        clipped_length: if honest { alignment.read_bases() as u32 } else { rng.draw() as u32 },
        position: if honest { alignment.position.max(1) as u32 } else { rng.draw() as u32 },
        start: if honest { start } else { rng.draw() as u32 },
        count: if honest { count } else { rng.draw() as u32 },
    };
    let at = if rng.chance(50) { 0 } else { rng.index(family.records.len() + 1) };
    family.records.insert(at, record);
}
