//! Prepared states.

use crate::plain;
use crate::testing::plans::configuration;
use crate::testing::random::Random;
use crate::view::{ACTIVE, HISTORY, SHARD_WORDS, issue};

/// The hosts of every prepared configuration; the lowest orders.
pub const MEMBERS: u64 = 0b1111;

/// A plan with a ring of sequencers and four hosts everywhere.
pub fn plan(shards: u64) -> Vec<u64> {
    (0..shards).flat_map(|shard| [(shard + 1) % shards, MEMBERS, 0]).collect()
}

/// A plan for an even number of shards, in which two and two are each other's sequencers.
pub fn pairs(shards: u64) -> Vec<u64> {
    (0..shards).flat_map(|shard| [shard ^ 1, MEMBERS, 0]).collect()
}

pub fn after_setup(plan: Vec<u64>) -> Vec<u64> {
    let mut words = vec![0; plan.len() / 3 * SHARD_WORDS];
    plain::setup(&mut words, &plan).expect("a good plan");
    words
}

/// All configurations installed, all replicas active, empty histories. The sources of an index are all hosts of the one
/// before, in an order that changes with the index.
pub fn installed(shards: u64) -> Vec<u64> {
    let mut words = after_setup(plan(shards));
    for block in words.chunks_exact_mut(SHARD_WORDS) {
        block[1] = 8;
        block[2..10].fill(MEMBERS);
        for (number, replica) in (0..).zip(block[64..].chunks_exact_mut(64)) {
            let (j, host) = (number / 4, number % 4);
            replica[0] = ACTIVE;
            replica[3] = if j == 0 { 0 } else { 1 + (host + j) % 4 };
        }
    }
    words
}

/// All configurations installed, all histories full and alike; so many entries in a hundred are issues.
pub fn full(random: &mut Random, shards: u64, issues: u64) -> Vec<u64> {
    let mut words = installed(shards);
    for block in words.chunks_exact_mut(SHARD_WORDS) {
        for replicas in block[64..].chunks_exact_mut(256) {
            let history: Vec<u64> = (0..HISTORY).map(|_| entry(random, shards, issues)).collect();
            for replica in replicas.chunks_exact_mut(64) {
                replica[1] = HISTORY as u64;
                replica[8..].copy_from_slice(&history);
            }
        }
    }
    words
}

/// The same with histories that differ from replica to replica in every entry.
pub fn differing(random: &mut Random, shards: u64, issues: u64) -> Vec<u64> {
    let mut words = full(random, shards, issues);
    for replica in replicas(&mut words) {
        replica[8..].fill_with(|| entry(random, shards, issues));
    }
    words
}

/// The same with histories alike as far as they go, each five entries longer than that of the replica before.
pub fn lagging(random: &mut Random, shards: u64, issues: u64) -> Vec<u64> {
    let mut words = full(random, shards, issues);
    for (number, replica) in replicas(&mut words).enumerate() {
        let length = HISTORY - 5 * (3 - number % 4);
        replica[1] = length as u64;
        replica[8 + length..].fill(0);
    }
    words
}

/// All replicas of all configurations.
fn replicas(words: &mut [u64]) -> impl Iterator<Item = &mut [u64]> {
    words.chunks_exact_mut(SHARD_WORDS).flat_map(|block| block[64..].chunks_exact_mut(64))
}

fn entry(random: &mut Random, shards: u64, issues: u64) -> u64 {
    if !random.chance(issues) {
        return random.within(1..=u64::from(u32::MAX));
    }
    let (members, orderer) = configuration(random);
    issue(random.within(2..=8), random.below(shards), orderer, members)
}
