//! Random well-formed states that no run from setup needs to reach.

use super::plans::{configuration, hosts, sequencers};
use super::random::Random;
use crate::view::{ACTIVE, HISTORY, IMMUTABLE, PENDING, SHARD_WORDS, issue};

/// A well-formed state of so many shards.
pub fn well_formed(random: &mut Random, shards: u64) -> Vec<u64> {
    let mut words = vec![0; shards as usize * SHARD_WORDS];
    let sequencers = sequencers(random, shards);
    for (block, sequencer) in words.chunks_exact_mut(SHARD_WORDS).zip(sequencers) {
        block[0] = sequencer;
        write_shard(random, block, shards);
    }
    words
}

fn write_shard(random: &mut Random, block: &mut [u64], shards: u64) {
    let installed = random.within(1..=8) as usize;
    block[1] = installed as u64;
    let mut origins = vec![0];
    for j in 0..installed {
        let (members, orderer) = configuration(random);
        block[2 + j] = members;
        block[10 + j] = orderer;
        let replicas = &mut block[64 + 256 * j..][..256];
        origins = write_replicas(random, replicas, members, &origins, shards);
    }
}

/// Writes the replicas of a configuration with some of the origins: 0 in the first, where none is pending. Without any,
/// all are pending. Gives the origins for the next configuration: the hosts, plus 1, whose replicas are not pending.
fn write_replicas(
    random: &mut Random,
    replicas: &mut [u64],
    members: u64,
    origins: &[u64],
    shards: u64,
) -> Vec<u64> {
    let histories = histories(random, shards);
    let mut next = Vec::new();
    for (host, replica) in hosts(members).into_iter().zip(replicas.chunks_exact_mut(64)) {
        match random.pick_any(origins) {
            Some(origin) if origin == 0 || !random.chance(20) => {
                replica[0] = random.within(ACTIVE..=IMMUTABLE);
                replica[3] = origin;
                write_history(random, replica, &histories);
                next.push(host + 1);
            }
            _ => replica[0] = PENDING,
        }
    }
    next
}

/// Two histories of one configuration, often long and often alike at first.
fn histories(random: &mut Random, shards: u64) -> [Vec<u64>; 2] {
    let first: Vec<u64> = (0..HISTORY).map(|_| entry(random, shards)).collect();
    let mut second = first.clone();
    if random.chance(50) {
        let from = random.place(HISTORY);
        second[from..].fill_with(|| entry(random, shards));
    }
    [first, second]
}

fn write_history(random: &mut Random, replica: &mut [u64], histories: &[Vec<u64>; 2]) {
    let length = match random.below(5) {
        0 => HISTORY as u64,
        1 => random.below(3),
        2 => random.within(54..=56),
        _ => random.below(57),
    };
    let history = &histories[usize::from(random.chance(30))];
    replica[1] = length;
    replica[2] = random.within(0..=length);
    replica[8..][..length as usize].copy_from_slice(&history[..length as usize]);
}

/// Any proper entry; issues of low index are many, so that rivals occur.
pub fn entry(random: &mut Random, shards: u64) -> u64 {
    match random.below(4) {
        0 => random.within(1..=30),
        1 => random.within(1..=u64::from(u32::MAX)),
        _ => {
            let (members, orderer) = configuration(random);
            issue(random.within(2..=8), random.below(shards), orderer, members)
        }
    }
}

/// Puts a state out of form now and then, and says whether it did; now and then takes a word away.
pub fn spoil_state(random: &mut Random, words: &mut Vec<u64>) -> bool {
    let out_of_form = random.chance(15);
    if out_of_form {
        let place = random.place(words.len());
        words[place] = u64::MAX;
    }
    if random.chance(10) {
        words.pop();
    }
    out_of_form
}
