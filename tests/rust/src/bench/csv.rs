//! The text for spreadsheets.

use std::hint::black_box;

use super::clock::{Case, measure};
use super::states::full;
use super::table::{SIDES, Table, sides};
use crate::interface::{Interface, Plain};
use crate::proved::CSV_BYTES;
use crate::testing::random::Random;
use crate::view::{HISTORY, SHARD_WORDS};

/// Texts of one state.
struct Csv {
    words: Vec<u64>,
    out: Vec<u8>,
}

impl Case for Csv {
    fn run<I: Interface>(&mut self) -> u64 {
        let mut count = [0];
        let out = black_box(&mut self.out[..]);
        I::csv(black_box(&self.words), out, &mut count) + count[0]
    }

    fn units(&self) -> usize {
        1
    }
}

/// Full histories, stable in index 1; with one configuration a shard, or with eight, which the check looks at too.
fn stable(random: &mut Random, shards: u64, configurations: usize, issues: u64) -> Vec<u64> {
    let mut words = full(random, shards, issues);
    for block in words.chunks_exact_mut(SHARD_WORDS) {
        block[1] = configurations as u64;
        block[2 + configurations..10].fill(0);
        block[64 + 256 * configurations..].fill(0);
        block[64..320].chunks_exact_mut(64).for_each(|replica| replica[2] = HISTORY as u64);
    }
    words
}

pub fn tables() -> Vec<Table> {
    let mut table = Table::new(
        "## Texts for spreadsheets\n\nThe text of a state whose stable histories are full, 56 rows a shard, in ns. The \
         whole check of the state is part of it: all replicas are full, four a configuration.",
        &[&["entries", "configurations", "Z"], &SIDES[..]].concat(),
    );
    let mut random = Random::new(7);
    for shards in [2, 8] {
        for (name, issues, configurations) in [
            ("takes", 0, 1),
            ("takes", 0, 8),
            ("1 in 2 an issue", 50, 1),
            ("1 in 2 an issue", 50, 8),
        ] {
            let words = stable(&mut random, shards, configurations, issues);
            let mut case = Csv { words, out: vec![0; CSV_BYTES] };
            assert!(case.run::<Plain>() > 1_000 * shards, "a text of full lists");
            let state = [name.to_string(), configurations.to_string(), shards.to_string()];
            table.row(&[&state[..], &sides(measure(&mut case))].concat());
        }
    }
    vec![table]
}
