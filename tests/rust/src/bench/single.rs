//! Steps of each kind, one by one and as one log.

use super::clock::{Case, measure};
use super::installs;
use super::states::{full, installed};
use super::steps::{AsLog, Steps};
use super::table::{SIDES, Table, sides};
use crate::step::Step;
use crate::testing::random::Random;
use crate::view::{ACTIVE, IMMUTABLE, PENDING, SHARD_WORDS, issue};

/// Forty takes go to an empty history, in every configuration.
fn adds(shards: u64) -> Steps {
    let take = |index, number: u64| Step::add(shards - 1, index, number * 1_000_003);
    let steps = (1..=8).flat_map(|index| (1..=40).map(move |number| take(index, number)));
    Steps::new(installed(shards), steps.collect())
}

/// One issue for each index from 2 on goes to a history of forty takes, in every configuration.
fn issue_adds(shards: u64) -> Steps {
    let (mut words, shard) = (installed(shards), shards - 1);
    let block = &mut words[shard as usize * SHARD_WORDS + 64..][..2_048];
    for replica in block.chunks_exact_mut(256) {
        replica[1] = 40;
        (1..).zip(&mut replica[8..48]).for_each(|(number, entry)| *entry = number * 1_000_003);
    }
    let add = |index, next| Step::add(shard, index, issue(next, shard - 1, 4, 0b1111_0000));
    let steps = (1..=8).flat_map(|index| (2..=8).map(move |next| add(index, next)));
    Steps::new(words, steps.collect())
}

/// Three hosts adopt a full history, in every configuration, ten times.
fn adopts(random: &mut Random, shards: u64) -> Steps {
    let once =
        (1..=8).flat_map(|index| (1..=3).map(move |host| Step::adopt(shards - 1, index, host)));
    let once: Vec<Step> = once.collect();
    Steps::new(full(random, shards, 0), once.repeat(10))
}

/// A host learns of one entry after the other, up to 56, in every configuration.
fn learns(random: &mut Random, shards: u64) -> Steps {
    let learn = |index, length| Step::learn(shards - 1, index, 3, length);
    let steps = (1..=8).flat_map(|index| (1..=56).map(move |length| learn(index, length)));
    Steps::new(full(random, shards, 0), steps.collect())
}

/// Every replica of a shard is wedged.
fn wedges(random: &mut Random, shards: u64) -> Steps {
    let steps =
        (1..=8).flat_map(|index| (0..=3).map(move |host| Step::wedge(shards - 1, index, host)));
    Steps::new(full(random, shards, 0), steps.collect())
}

/// Three pending replicas of each configuration inherit a full history from a wedged one, whose source is that before.
fn inherits(random: &mut Random, shards: u64) -> Steps {
    beginnings(random, shards, IMMUTABLE, Step::inherit)
}

/// The same replicas catch up from the active one of their own configuration.
fn catch_ups(random: &mut Random, shards: u64) -> Steps {
    beginnings(random, shards, ACTIVE, Step::catch_up)
}

/// Three pending replicas of each configuration begin from host 0, whose replicas have a mode and full histories.
fn beginnings(
    random: &mut Random,
    shards: u64,
    mode: u64,
    begin: fn(u64, u64, u64, u64) -> Step,
) -> Steps {
    let mut words = full(random, shards, 0);
    let mut steps = Vec::new();
    let shard = shards - 1;
    let block = &mut words[shard as usize * SHARD_WORDS + 64..][..2_048];
    for (j, replicas) in (0..).zip(block.chunks_exact_mut(256)) {
        replicas[0] = mode;
        if j > 0 {
            replicas[3] = 1;
            for host in 1..4 {
                replicas[host as usize * 64..][..64].fill(0);
                replicas[host as usize * 64] = PENDING;
                steps.push(begin(shard, j + 1, host, 0));
            }
        }
    }
    Steps::new(words, steps)
}

/// Steps and the name of their row.
type Row = (&'static str, Steps);

/// Rows of both tables.
fn cases(shards: u64) -> Vec<Row> {
    let mut random = Random::new(2);
    vec![
        ("add, empty to 40 entries", adds(shards)),
        ("add, an issue after 40 takes", issue_adds(shards)),
        ("adopt, 56 entries", adopts(&mut random, shards)),
        ("learn, 1 to 56 entries, 4 replicas", learns(&mut random, shards)),
        ("wedge", wedges(&mut random, shards)),
        ("inherit, 56 entries", inherits(&mut random, shards)),
        ("catch up, 56 entries", catch_ups(&mut random, shards)),
        ("install, not wedged (24)", installs::unwedged(&mut random, shards)),
    ]
}

/// Rows of the single steps alone: a shard's next install needs other steps between.
fn single_cases(shards: u64) -> Vec<Row> {
    let mut random = Random::new(2);
    let [first, last] = [0, 3].map(|number| installs::wedged(&mut random, shards, number));
    vec![("install, wedged in its first seat", first), ("install, wedged in its last seat", last)]
}

/// Rows of the logs alone, which have those steps.
fn log_cases(shards: u64) -> Vec<Row> {
    let mut random = Random::new(2);
    let [first, last] = [0, 3].map(|number| installs::in_turn(&mut random, shards, number));
    vec![
        ("install, inherit, wedge in turn, in the first seat", first),
        ("install, inherit, wedge in turn, in the last seat", last),
    ]
}

pub fn tables() -> Vec<Table> {
    let mut single = Table::new(
        "## Single steps\n\nSteps called one by one, each with the whole check of its state, in ns a step. All are accepted \
         but for those with the number of a rejection.",
        &[&["step", "Z"], &SIDES[..]].concat(),
    );
    for shards in [2, 8] {
        for (name, mut steps) in cases(shards).into_iter().chain(single_cases(shards)) {
            let times = sides(measure(&mut steps));
            single.row(&[&[name.to_string(), shards.to_string()][..], &times].concat());
        }
    }
    let mut as_log = Table::new(
        "## The same steps as one log\n\nReplays of these steps at Z = 2, in ns a step: reading, the step, and a share \
         of one check.",
        &[&["step", "steps"], &SIDES[..]].concat(),
    );
    for (name, steps) in cases(2).into_iter().chain(log_cases(2)) {
        let mut log = AsLog::new(steps);
        let times = sides(measure(&mut log));
        as_log.row(&[&[name.to_string(), log.units().to_string()][..], &times].concat());
    }
    vec![single, as_log]
}
