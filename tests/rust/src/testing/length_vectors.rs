//! The vectors of the repository that are rich in lengths: calls of four functions on states that can and cannot be.

use super::vectors::{Outputs, StepVector, Tokens, calls};
use crate::step::Step;

/// One call, and what is expected.
pub enum LengthVector {
    Setup(SetupVector),
    Step(StepVector),
    History(HistoryVector),
    Replay(ReplayVector),
}

pub struct SetupVector {
    pub plan: Vec<u64>,
    pub state_len: usize,
    pub answer: u64,
    /// The whole state after an accepted call; no words after a rejected one.
    pub state: Vec<u64>,
}

/// A call for a shard's stable history.
pub struct HistoryVector {
    pub words: Vec<u64>,
    pub shard: u64,
    pub outputs: Outputs<u64>,
}

pub struct ReplayVector {
    pub words: Vec<u64>,
    pub log: Vec<u8>,
    pub budget: u64,
    pub report_len: usize,
    pub answer: u64,
    /// FNV-1a over the state after the replay.
    pub check: u64,
    /// What is written at the start of the report.
    pub report: Vec<u64>,
}

/// The calls of `tests/vectors/lengths/length.txt`.
pub fn length_vectors() -> Vec<LengthVector> {
    calls("lengths/length.txt", length_vector)
}

fn length_vector(tokens: &mut Tokens) -> LengthVector {
    match tokens.next() {
        "setup" => LengthVector::Setup(setup_vector(tokens)),
        "step" => LengthVector::Step(step_vector(tokens)),
        "history" => LengthVector::History(history_vector(tokens)),
        "replay" => LengthVector::Replay(replay_vector(tokens)),
        name => panic!("a call of {name}"),
    }
}

fn setup_vector(tokens: &mut Tokens) -> SetupVector {
    let (plan, state_len) = (tokens.words(), tokens.length());
    tokens.expect("=");
    let (answer, state) = (tokens.number(), tokens.state());
    SetupVector { plan, state_len, answer, state }
}

fn step_vector(tokens: &mut Tokens) -> StepVector {
    let (words, kind) = (tokens.state(), tokens.number());
    let step = Step::new(kind, [(); 4].map(|_| tokens.number()));
    tokens.expect("=");
    let (answer, check) = (tokens.number(), tokens.number());
    StepVector { words, step, answer, check }
}

fn history_vector(tokens: &mut Tokens) -> HistoryVector {
    let (words, shard) = (tokens.state(), tokens.number());
    HistoryVector { words, shard, outputs: tokens.outputs(Tokens::words) }
}

fn replay_vector(tokens: &mut Tokens) -> ReplayVector {
    let (words, log, budget) = (tokens.state(), tokens.bytes(), tokens.number());
    let report_len = tokens.length();
    tokens.expect("=");
    let (answer, check, report) = (tokens.number(), tokens.number(), tokens.words());
    ReplayVector { words, log, budget, report_len, answer, check, report }
}
