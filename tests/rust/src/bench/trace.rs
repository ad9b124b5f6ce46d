//! Where a replica got its history.

use std::hint::black_box;

use super::clock::{Case, measure};
use super::states::{full, installed};
use super::table::{SIDES, Table, sides};
use crate::interface::{Interface, Plain};
use crate::proved::TRACE_HOSTS;
use crate::seat::Seat;
use crate::testing::random::Random;

/// Traces of the four replicas of index 8 of the last shard.
struct Traces {
    words: Vec<u64>,
    shard: u64,
}

impl Case for Traces {
    fn run<I: Interface>(&mut self) -> u64 {
        let (mut out, mut count, mut mixed) = ([0; TRACE_HOSTS], [0], 0u64);
        for host in 0..4 {
            let seat = black_box(Seat { shard: self.shard, index: 8, host });
            mixed += I::trace(black_box(&self.words), seat, &mut out, &mut count);
            mixed = out.iter().fold(mixed + count[0], |mixed, host| 4 * mixed + host);
        }
        mixed
    }

    fn units(&self) -> usize {
        4
    }
}

impl Traces {
    fn length(&self) -> u64 {
        let mut count = [0];
        let seat = Seat { shard: self.shard, index: 8, host: 0 };
        assert_eq!(Plain::trace(&self.words, seat, &mut [0; TRACE_HOSTS], &mut count), 0);
        count[0]
    }
}

pub fn tables() -> Vec<Table> {
    let mut table = Table::new(
        "## Traces\n\nFrom index 8 back to index 1, seven hosts, in ns a trace. The whole check of the state is part \
         of it: 8 configurations of 4 replicas, with no or with 56 entries each.",
        &[&["histories", "Z"], &SIDES[..]].concat(),
    );
    let mut random = Random::new(8);
    for shards in [2, 8] {
        let states =
            [("empty", installed(shards)), ("full of takes", full(&mut random, shards, 0))];
        for (name, words) in states {
            let mut traces = Traces { words, shard: shards - 1 };
            assert_eq!(traces.length(), 7, "hosts of a trace");
            let times = sides(measure(&mut traces));
            table.row(&[&[name.to_string(), shards.to_string()][..], &times].concat());
        }
    }
    vec![table]
}
