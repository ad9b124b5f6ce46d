//! Steps on a prepared state, one by one and as one log.

use std::hint::black_box;

use super::clock::Case;
use crate::interface::{Interface, Plain};
use crate::rejection::Rejection;
use crate::step::Step;
use crate::testing::logs::push_step;

/// Steps one after the other, on a prepared state.
pub struct Steps {
    before: Vec<u64>,
    words: Vec<u64>,
    steps: Vec<Step>,
}

impl Case for Steps {
    fn restore(&mut self) {
        self.words.copy_from_slice(&self.before);
    }

    fn run<I: Interface>(&mut self) -> u64 {
        let words = black_box(&mut self.words);
        self.steps.iter().map(|&step| I::step(words, step)).sum()
    }

    fn units(&self) -> usize {
        self.steps.len()
    }
}

impl Steps {
    /// All are accepted.
    pub fn new(before: Vec<u64>, steps: Vec<Step>) -> Steps {
        Steps::answered(before, steps, 0)
    }

    pub fn rejected(before: Vec<u64>, steps: Vec<Step>, rejection: Rejection) -> Steps {
        Steps::answered(before, steps, rejection.number())
    }

    fn answered(before: Vec<u64>, steps: Vec<Step>, answer: u64) -> Steps {
        let mut words = before.clone();
        for &step in &steps {
            assert_eq!(Plain::step(&mut words, step), answer, "{step:?}");
        }
        Steps { before, words, steps }
    }
}

/// The same steps in one log.
pub struct AsLog {
    steps: Steps,
    log: Vec<u8>,
}

impl Case for AsLog {
    fn restore(&mut self) {
        self.steps.restore();
    }

    fn run<I: Interface>(&mut self) -> u64 {
        let mut report = [0; 4];
        let words = black_box(&mut self.steps.words[..]);
        I::replay(words, black_box(&self.log), u64::MAX, &mut report) + report[2]
    }

    fn units(&self) -> usize {
        self.steps.units()
    }
}

impl AsLog {
    pub fn new(steps: Steps) -> AsLog {
        let mut log = Vec::new();
        steps.steps.iter().for_each(|&step| push_step(&mut log, step));
        AsLog { steps, log }
    }
}
