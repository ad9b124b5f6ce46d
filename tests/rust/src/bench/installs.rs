//! Installs, by what the newest configuration of their shard is.

use super::states::{after_setup, full, plan};
use super::steps::Steps;
use crate::rejection::Rejection;
use crate::step::Step;
use crate::testing::random::Random;
use crate::view::{HISTORY, IMMUTABLE, SHARD_WORDS, issue};

/// Hosts 4 to 7 are issued for every index after the first; the lowest orders.
const MEMBERS: u64 = 0b1111_0000;
const ORDERER: u64 = 4;

/// The place of the issue for index 0, if there were one.
const PLACE: u64 = 20;

/// How often installs are tried that change nothing.
const TIMES: usize = 20;

/// One install of each shard, whose configuration is wedged in one replica.
pub fn wedged(random: &mut Random, shards: u64, number: usize) -> Steps {
    let steps = (0..shards).map(|shard| install(shard, 2));
    Steps::new(issued_and_wedged(random, shards, number), steps.collect())
}

/// The same with all replicas active, many times.
pub fn unwedged(random: &mut Random, shards: u64) -> Steps {
    let once: Vec<Step> = (0..shards).map(|shard| install(shard, 2)).collect();
    Steps::rejected(issued(random, shards), once.repeat(TIMES), Rejection::NotWedged)
}

/// The configurations 2 to 8 of each shard: installed, inherited by one host, which is wedged for the next one.
pub fn in_turn(random: &mut Random, shards: u64, number: usize) -> Steps {
    let heir = ORDERER + number as u64;
    let step = |shard, index| {
        let source = if index == 2 { number as u64 } else { heir };
        let inherit = Step::inherit(shard, index, heir, source);
        [install(shard, index), inherit, Step::wedge(shard, index, heir)]
    };
    let steps = (0..shards).flat_map(|shard| (2..=8).flat_map(move |index| step(shard, index)));
    Steps::new(issued_and_wedged(random, shards, number), steps.collect())
}

/// An install from the first replica of the sequencer.
fn install(shard: u64, index: u64) -> Step {
    Step::install(shard, 1, 0, PLACE + index)
}

/// One configuration a shard. The first replica of its sequencer has a full stable history with the issues of all others.
fn issued(random: &mut Random, shards: u64) -> Vec<u64> {
    let mut words = after_setup(plan(shards));
    let takes = full(random, shards, 0);
    for shard in 0..shards {
        let sequencer = (shard + 1) % shards;
        let replica = sequencer as usize * SHARD_WORDS + 64;
        words[replica..][..64].copy_from_slice(&takes[replica..][..64]);
        words[replica + 2] = HISTORY as u64;
        for index in 2..=8 {
            let place = (PLACE + index) as usize;
            words[replica + 8 + place] = issue(index, shard, ORDERER, MEMBERS);
        }
    }
    words
}

/// The same with one replica of each configuration immutable.
fn issued_and_wedged(random: &mut Random, shards: u64, number: usize) -> Vec<u64> {
    let mut words = issued(random, shards);
    for block in words.chunks_exact_mut(SHARD_WORDS) {
        block[64 + 64 * number] = IMMUTABLE;
    }
    words
}
