//! The original's answer in the wrapper's terms.

use codec_host::text::{Columns, Pair};
use codec_host::{Answer, Limits};
use original::codec_caller::{
    CodecConsensusError, CodecConsensusOptions, CombiningAlone, combine_alone,
};
use original::trace;

/// The duplex with its tallies, or the limit that rejected with its figure.
pub fn answer(pair: &Pair) -> (Answer, Option<Columns>) {
    let [first, second] = [&pair.first, &pair.second].map(columns);
    match combine_alone(options(pair.limits), first, second) {
        Ok((duplex, bases, disagreements)) => {
            let [bases, disagreements] = [bases, disagreements].map(narrow);
            let trace::Columns { bases: b, quals, depths, errors } = duplex;
            let duplex = Columns { bases: b, quals, depths, errors };
            (Answer::Duplex { bases, disagreements }, Some(duplex))
        }
        Err(CodecConsensusError::DuplexDisagreementCount { disagreements }) => {
            (Answer::DisagreementCount(narrow(disagreements as u64)), None)
        }
        Err(CodecConsensusError::DuplexDisagreementRate { rate }) => {
            (Answer::DisagreementRate(rate), None)
        }
        Err(CodecConsensusError::Other(error)) => panic!("{error}"),
    }
}

/// A call that can be repeated with nothing around it.
pub fn ready(pair: &Pair) -> CombiningAlone {
    CombiningAlone::new(options(pair.limits), columns(&pair.first), columns(&pair.second))
}

fn options(limits: Limits) -> CodecConsensusOptions {
    CodecConsensusOptions {
        max_duplex_disagreements: limits.max_disagreements as usize,
        max_duplex_disagreement_rate: limits.max_rate,
        ..CodecConsensusOptions::default()
    }
}

pub fn columns(columns: &Columns) -> trace::Columns {
    let Columns { bases, quals, depths, errors } = columns.clone();
    trace::Columns { bases, quals, depths, errors }
}

fn narrow(count: u64) -> u32 {
    count.try_into().expect("at most one for each position")
}
