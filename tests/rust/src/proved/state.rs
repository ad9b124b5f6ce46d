//! States, owned or borrowed.

use super::answer::{replayed, result};
use super::ffi;
use crate::rejection::Rejection;
use crate::report::Report;
use crate::seat::Seat;
use crate::step::Step;
use crate::tally::Tally;

/// The length of a state for so many shards, if there may be so many.
pub fn state_words(shards: usize) -> Option<usize> {
    match ffi::state_words(shards as u64) {
        0 => None,
        words => Some(words as usize),
    }
}

/// The words of a state: a `Vec<u64>` that it owns, or a `&mut [u64]` that it borrows.
///
/// The words may hold anything. Each call looks at them and rejects those that are no well-formed state.
#[derive(Clone, Debug, PartialEq, Eq)]
pub struct State<W = Vec<u64>> {
    words: W,
}

impl State {
    /// A new state from a plan of three words a shard: sequencer, members, orderer.
    pub fn setup(plan: &[u64]) -> Result<State, Rejection> {
        let words = state_words(plan.len() / 3).ok_or(Rejection::StateLength)?;
        let mut state = State::from_words(vec![0; words]);
        state.reset(plan)?;
        Ok(state)
    }
}

impl<W: AsRef<[u64]>> State<W> {
    /// The state that the words are, whatever they hold.
    pub fn from_words(words: W) -> State<W> {
        State { words }
    }

    pub fn words(&self) -> &[u64] {
        self.words.as_ref()
    }

    pub fn into_words(self) -> W {
        self.words
    }

    /// A shard's stable history, its longest over all replicas.
    pub fn stable_history(&self, shard: u64) -> Result<Vec<u64>, Rejection> {
        let mut out = vec![0; HISTORY];
        let length = self.stable_history_into(shard, &mut out)?;
        out.truncate(length);
        Ok(out)
    }

    /// Copies a shard's stable history to the start of `out` and gives its length.
    pub fn stable_history_into(&self, shard: u64, out: &mut [u64]) -> Result<usize, Rejection> {
        let mut count = [0];
        result(ffi::stable_history(self.words(), shard, out, &mut count))?;
        Ok(count[0] as usize)
    }

    /// What a host shows of a configuration: the stable prefix of its replica.
    pub fn stable_prefix(&self, seat: Seat) -> Result<Vec<u64>, Rejection> {
        let mut out = vec![0; HISTORY];
        let length = self.stable_prefix_into(seat, &mut out)?;
        out.truncate(length);
        Ok(out)
    }

    /// Copies the stable prefix of a replica to the start of `out` and gives its length.
    pub fn stable_prefix_into(&self, seat: Seat, out: &mut [u64]) -> Result<usize, Rejection> {
        let mut count = [0];
        result(ffi::stable_prefix(self.words(), seat, out, &mut count))?;
        Ok(count[0] as usize)
    }

    /// From which hosts a replica's history came, one for each configuration before, nearest first; none where the
    /// replica is pending.
    pub fn trace(&self, seat: Seat) -> Result<Vec<u64>, Rejection> {
        let mut out = vec![0; TRACE_HOSTS];
        let length = self.trace_into(seat, &mut out)?;
        out.truncate(length);
        Ok(out)
    }

    /// Writes these hosts to the start of `out`, which has room for seven, and gives how many they are.
    pub fn trace_into(&self, seat: Seat, out: &mut [u64]) -> Result<usize, Rejection> {
        let mut count = [0];
        result(ffi::trace(self.words(), seat, out, &mut count))?;
        Ok(count[0] as usize)
    }

    /// Every shard's stable history as text for spreadsheets (RFC 4180).
    pub fn csv(&self) -> Result<Vec<u8>, Rejection> {
        let mut out = vec![0; CSV_BYTES];
        let length = self.csv_into(&mut out)?;
        out.truncate(length);
        Ok(out)
    }

    /// Writes that text to the start of `out` and gives its length.
    pub fn csv_into(&self, out: &mut [u8]) -> Result<usize, Rejection> {
        let mut count = [0];
        result(ffi::csv(self.words(), out, &mut count))?;
        Ok(count[0] as usize)
    }
}

impl<W: AsRef<[u64]> + AsMut<[u64]>> State<W> {
    /// The words, to be changed at will: what was well-formed need not stay so.
    pub fn words_mut(&mut self) -> &mut [u64] {
        self.words.as_mut()
    }

    /// Writes every word anew from a plan.
    pub fn reset(&mut self, plan: &[u64]) -> Result<(), Rejection> {
        result(ffi::setup(self.words_mut(), plan))
    }

    /// Tries one step.
    pub fn step(&mut self, step: Step) -> Result<(), Rejection> {
        result(ffi::step(self.words_mut(), step))
    }

    /// Reads and tries the steps of a log, as many as the budget allows.
    ///
    /// Only a state that is no well-formed one is rejected. Damaged bytes stop the replay, and the report tells it.
    pub fn replay(&mut self, log: &[u8], budget: u64) -> Result<Report, Rejection> {
        let mut report = [0; 4];
        let answer = ffi::replay(self.words_mut(), log, budget, &mut report);
        replayed(answer, report)
    }

    /// The same, with the rejected steps told by host: the tally counts them from zero.
    ///
    /// A rejected replay leaves the tally as it was.
    pub fn replay_tally(
        &mut self,
        log: &[u8],
        budget: u64,
        tally: &mut Tally,
    ) -> Result<Report, Rejection> {
        let (mut report, mut counts) = ([0; 4], tally.words());
        let answer = ffi::replay_tally(self.words_mut(), log, budget, &mut report, &mut counts);
        *tally = Tally::from_words(counts);
        replayed(answer, report)
    }
}

/// No text for spreadsheets is longer.
pub const CSV_BYTES: usize = 10_247;

/// No trace has more hosts, and its output is no shorter.
pub const TRACE_HOSTS: usize = 7;

/// Entries that a history holds at most.
const HISTORY: usize = 56;
