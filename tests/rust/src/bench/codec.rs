//! Reading and writing steps.

use std::hint::black_box;

use super::clock::{Case, measure};
use super::table::{SIDES, Table, sides};
use crate::interface::Interface;
use crate::step::Step;
use crate::testing::logs::{KINDS, push_step, writable_step};
use crate::testing::random::Random;

const STEPS: usize = 4_000;

/// Which steps a log has.
type Source = fn(&mut Random) -> Step;

/// Numbers as in runs: small but for the entries.
fn run_step(random: &mut Random) -> Step {
    let (shard, index, host) = (random.below(8), random.within(1..=8), random.below(16));
    match random.within(KINDS) {
        1 => Step::add(shard, index, (random.any_width() >> 32).max(1)),
        2 => Step::adopt(shard, index, host),
        3 => Step::learn(shard, index, host, random.below(57)),
        4 => Step::wedge(shard, index, host),
        5 => Step::install(shard, index, host, random.below(56)),
        6 => Step::inherit(shard, index, host, random.below(16)),
        _ => Step::catch_up(shard, index, host, random.below(16)),
    }
}

struct Reads {
    random: Random,
    source: Source,
    log: Vec<u8>,
}

impl Case for Reads {
    fn refresh(&mut self) {
        self.log.clear();
        for _ in 0..STEPS {
            push_step(&mut self.log, (self.source)(&mut self.random));
        }
    }

    fn run<I: Interface>(&mut self) -> u64 {
        let log = black_box(&self.log[..]);
        let (mut step, mut mixed) = ([0; 6], 0u64);
        while (step[5] as usize) < log.len() {
            let answer = I::read_step(log, step[5] as usize, &mut step);
            mixed = mixed.rotate_left(1) ^ step[3] ^ answer;
        }
        mixed
    }

    fn units(&self) -> usize {
        STEPS
    }
}

struct Writes {
    random: Random,
    source: Source,
    steps: Vec<Step>,
    out: Vec<u8>,
}

impl Case for Writes {
    fn refresh(&mut self) {
        self.steps.clear();
        self.steps.extend((0..STEPS).map(|_| (self.source)(&mut self.random)));
    }

    fn restore(&mut self) {
        self.out.fill(0);
    }

    fn run<I: Interface>(&mut self) -> u64 {
        let out = black_box(&mut self.out[..]);
        let (mut at, mut count, mut answers) = (0, [0], 0);
        for &step in &self.steps {
            answers += I::write_step(out, at, step, &mut count);
            at += count[0] as usize;
        }
        answers + at as u64
    }

    fn units(&self) -> usize {
        STEPS
    }
}

pub fn tables() -> Vec<Table> {
    let mut table = Table::new(
        "## Reading and writing steps\n\nA fresh log of 4,000 random steps each round, in ns a step. Mixed: numbers of \
         one to five bytes; as in runs: only entries are long.",
        &[&["what", "numbers"], &SIDES[..]].concat(),
    );
    let sources: [(&str, Source); 2] = [("mixed", writable_step), ("as in runs", run_step)];
    for (name, source) in sources {
        let mut reads = Reads { random: Random::new(3), source, log: Vec::new() };
        let mut writes =
            Writes { random: Random::new(4), source, steps: Vec::new(), out: vec![0; STEPS * 25] };
        for (what, times) in [("read", measure(&mut reads)), ("write", measure(&mut writes))] {
            table.row(&[&[what.to_string(), name.to_string()][..], &sides(times)].concat());
        }
    }
    vec![table]
}
