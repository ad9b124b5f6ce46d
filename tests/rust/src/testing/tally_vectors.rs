//! The vectors of the repository for replays that tell rejections by host.

use super::length_vectors::ReplayVector;
use super::vectors::{Tokens, calls};

/// One such replay, and what is expected.
pub struct TallyVector {
    pub replay: ReplayVector,
    pub tally_len: usize,
    /// What is written at the start of the tally.
    pub tally: Vec<u64>,
}

/// The calls of `tests/vectors/tally/tally.txt`.
pub fn tally_vectors() -> Vec<TallyVector> {
    calls("tally/tally.txt", tally_vector)
}

fn tally_vector(tokens: &mut Tokens) -> TallyVector {
    tokens.expect("tally");
    let (words, log, budget) = (tokens.state(), tokens.bytes(), tokens.number());
    let (report_len, tally_len) = (tokens.length(), tokens.length());
    tokens.expect("=");
    let (answer, check) = (tokens.number(), tokens.number());
    let (report, tally) = (tokens.words(), tokens.words());
    let replay = ReplayVector { words, log, budget, report_len, answer, check, report };
    TallyVector { replay, tally_len, tally }
}
