//! The program's text.

use std::hint::black_box;

use super::clock::{Case, measure};
use super::table::{SIDES, Table, sides};
use crate::interface::Interface;
use crate::plain;
use crate::step::Step;
use crate::testing::logs::push_step;
use crate::testing::random::Random;

/// Transcripts of fresh logs.
struct Transcripts {
    random: Random,
    steps: usize,
    log: Vec<u8>,
    out: Vec<u8>,
}

impl Case for Transcripts {
    fn refresh(&mut self) {
        self.log.clear();
        for _ in 0..self.steps {
            let (shard, random) = (self.random.below(2), &mut self.random);
            let step = match random.below(8) {
                0..=4 => Step::add(shard, 1, random.within(1..=60)),
                5 | 6 => Step::adopt(shard, 1, 2 * shard + 1),
                _ => Step::learn(shard, 1, 2 * shard + 1, random.within(1..=56)),
            };
            push_step(&mut self.log, step);
        }
    }

    fn run<I: Interface>(&mut self) -> u64 {
        let mut count = [0];
        let out = black_box(&mut self.out[..]);
        I::transcript(black_box(&self.log), out, &mut count) + count[0]
    }

    fn units(&self) -> usize {
        1
    }
}

pub fn tables() -> Vec<Table> {
    let mut table = Table::new(
        "## Transcripts\n\nThe program's whole text for a fresh log each round, in ns.",
        &[&["steps"], &SIDES[..]].concat(),
    );
    for steps in [0, 100, 3_500] {
        let mut case = Transcripts {
            random: Random::new(6),
            steps,
            log: Vec::new(),
            out: vec![0; plain::TEXT_BYTES],
        };
        table.row(&[&[steps.to_string()][..], &sides(measure(&mut case))].concat());
    }
    vec![table]
}
