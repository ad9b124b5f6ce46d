//! Replays with a tally, against single steps whose rejections are counted by the sentences of request A7, and against
//! replays without one.

use std::fmt;

use super::coverage::{ANSWERS, REJECTIONS};
use super::sides::{self, Tallied};
use super::singly::singly;
use super::tried::Tried;
use super::triplet::Triplet;
use crate::step::Step;
use crate::tally::TALLY_WORDS;
use crate::view::View;

/// The word of steps that name no host; those before it are the words of hosts 0 to 15.
pub const NONE: usize = 16;

/// The kind of an add.
const ADD: u64 = 1;

/// The kinds of steps and 0, which is none.
const KINDS: usize = REJECTIONS.len();

/// The word in which a rejected step counts. The view is of the state, which it left as it was.
fn word_of(view: View, step: Step, answer: u64) -> usize {
    let [shard, index, host, _] = step.numbers;
    match (step.kind, answer) {
        // "No box is named when its number is above 15 or, for add, when refusal 7 or 10 occurs."
        (ADD, 7 | 10) => NONE,
        // "The box is the named one; for add it is the orderer of the named configuration."
        (ADD, _) => view.orderer(shard, index) as usize,
        _ if host > 15 => NONE,
        _ => host as usize,
    }
}

/// Whether rejections of a kind with an answer can count for a host, and for none.
fn can_count(kind: u64, answer: u64) -> [bool; 2] {
    match (kind, answer) {
        (ADD, 7 | 10) => [false, true],
        // The number of the host is out of range, or another one.
        (_, 7) => [true, true],
        _ => [true, false],
    }
}

/// What replays met.
#[derive(Default)]
pub struct Met {
    /// Rejected steps by the word in which they count.
    pub words: [u64; TALLY_WORDS],
    /// Rejected steps by kind and answer: those that count for a host, and for none.
    pub kinds: [[[u64; 2]; ANSWERS]; KINDS],
    /// Replays by how they stopped: ended, spent, damaged.
    pub stops: [u64; 3],
    /// Replays by the number of their damage, or 0.
    pub damages: [u64; 7],
}

impl Met {
    /// Replays a log with a tally, without one, and as single steps. All three do the same to a well-formed state.
    pub fn replay(&mut self, state: &mut Triplet<u64>, log: &[u8], budget: u64) {
        let mut words = state.get().to_vec();
        let expected = self.singly(&mut words, log, budget);
        let mut untold = Triplet::new(state.get());
        let replayed = sides::replay(&mut untold, log, budget);
        let tallied = sides::replay_tally(state, log, budget);
        assert_eq!(tallied, expected, "{log:02x?} with budget {budget}");
        assert_eq!(tallied.replayed, replayed, "without a tally: {log:02x?} with budget {budget}");
        assert!(state.get() == words, "state after single steps: {log:02x?}");
        assert!(state.get() == untold.get(), "state without a tally: {log:02x?}");
        let [stop, ..] = replayed.report.expect("a report");
        self.stops[stop as usize] += 1;
        self.damages[replayed.answer as usize] += 1;
    }

    /// What a replay of a log has to give, from its steps one by one.
    fn singly(&mut self, words: &mut [u64], log: &[u8], budget: u64) -> Tallied {
        let mut tally = [0; TALLY_WORDS];
        let replayed = singly(words, log, budget, |tried, words| {
            if tried.answer != 0 {
                let word = word_of(View::new(words), tried.step, tried.answer);
                tally[word] += 1;
                self.note(tried, word);
            }
        });
        Tallied { replayed, tally: Some(tally) }
    }

    fn note(&mut self, Tried { step, answer, .. }: Tried, word: usize) {
        self.words[word] += 1;
        self.kinds[step.kind as usize][answer as usize][usize::from(word == NONE)] += 1;
    }

    /// Insists on at least so many rejected steps in every word, and of every kind and answer but those left out for
    /// whatever they can count.
    pub fn assert_rejections(&self, least: u64, without: &[u64]) {
        assert!(self.words.iter().all(|&count| count >= least), "{self}");
        for (kind, answers) in (0..).zip(REJECTIONS).skip(1) {
            for &answer in answers.iter().filter(|answer| !without.contains(answer)) {
                let counts = self.kinds[kind as usize][answer as usize];
                for (count, can) in counts.into_iter().zip(can_count(kind, answer)) {
                    let right = if can { count >= least } else { count == 0 };
                    assert!(right, "{counts:?} steps of kind {kind} got {answer}\n{self}");
                }
            }
        }
    }

    /// Insists on at least so many replays that ended, were spent, and were damaged in each way.
    pub fn assert_stops(&self, least: u64) {
        let counts = self.stops.iter().chain(&self.damages[3..]);
        assert!(counts.into_iter().all(|&count| count >= least), "{self}");
    }
}

impl fmt::Display for Met {
    fn fmt(&self, f: &mut fmt::Formatter<'_>) -> fmt::Result {
        writeln!(f, "rejected steps by word: {:?}", self.words)?;
        for (kind, counts) in self.kinds.iter().enumerate().skip(1) {
            let met = counts.iter().enumerate().filter(|(_, counts)| **counts != [0, 0]);
            let met: Vec<String> = met
                .map(|(answer, [named, unnamed])| format!("{answer}: {named} + {unnamed}"))
                .collect();
            writeln!(f, "  kind {kind}, for a host + for none: {}", met.join(", "))?;
        }
        writeln!(f, "  replays ended, spent, damaged: {:?}", self.stops)?;
        write!(f, "  damages 3 to 6: {:?}", &self.damages[3..])
    }
}
