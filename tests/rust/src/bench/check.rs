//! The whole check of a state.

use std::hint::black_box;

use super::clock::{Case, measure_sides};
use super::states::{after_setup, differing, full, lagging};
use super::table::{SIDES, Table, ns, ratio, sides};
use crate::interface::{Interface, Plain, Proved, Tuned};
use crate::testing::random::Random;

const BATCH: usize = 16;

struct Check {
    words: Vec<u64>,
}

impl Case for Check {
    fn run<I: Interface>(&mut self) -> u64 {
        let mut report = [0; 4];
        let mut answers = 0;
        for _ in 0..BATCH {
            answers += I::replay(black_box(&mut self.words), &[], 0, &mut report);
        }
        answers
    }

    fn units(&self) -> usize {
        BATCH
    }
}

impl Check {
    /// A plain loop over the same words.
    fn sum(&mut self) -> u64 {
        (0..BATCH).map(|_| sum(black_box(&self.words))).fold(0, u64::wrapping_add)
    }
}

#[inline(never)]
fn sum(words: &[u64]) -> u64 {
    let mut sum = 0u64;
    for &word in words {
        sum = sum.wrapping_add(word);
    }
    sum
}

pub fn tables() -> Vec<Table> {
    let mut table = Table::new(
        "## The whole check of a state\n\nA replay of an empty log with budget 0, in ns; `sum` is a wrapping sum over \
         the same words. Full states have 8 configurations of 4 replicas with 56 entries each.",
        &[&["state", "Z"], &SIDES[..], &["sum", "proved/sum"]].concat(),
    );
    let mut random = Random::new(1);
    for shards in [2, 8] {
        let states = [
            ("after setup", after_setup(super::states::plan(shards))),
            ("full of takes", full(&mut random, shards, 0)),
            ("full, 1 in 10 an issue", full(&mut random, shards, 10)),
            ("full, 1 in 2 an issue", full(&mut random, shards, 50)),
            ("full of takes, all differ", differing(&mut random, shards, 0)),
            ("1 in 10 an issue, all differ", differing(&mut random, shards, 10)),
            ("1 in 2 an issue, all differ", differing(&mut random, shards, 50)),
            ("takes, each a bit longer", lagging(&mut random, shards, 0)),
            ("1 in 10 an issue, each a bit longer", lagging(&mut random, shards, 10)),
            ("1 in 2 an issue, each a bit longer", lagging(&mut random, shards, 50)),
        ];
        for (name, words) in states {
            let mut check = Check { words };
            assert_eq!(check.run::<Plain>(), 0, "a well-formed state");
            let all = [Check::run::<Proved>, Check::run::<Plain>, Check::run::<Tuned>, Check::sum];
            let [proved, plain, tuned, sum] = measure_sides(&mut check, all);
            let state = [name.to_string(), shards.to_string()];
            let sum = [ns(sum), ratio(proved, sum)];
            table.row(&[&state[..], &sides([proved, plain, tuned]), &sum].concat());
        }
    }
    vec![table]
}
