//! Random plans and configurations.

use super::random::Random;

/// One to four hosts, and one of them as orderer.
pub fn configuration(random: &mut Random) -> (u64, u64) {
    let size = random.within(1..=4);
    let mut members = 0u64;
    while u64::from(members.count_ones()) < size {
        members |= 1 << random.below(16);
    }
    (members, random.pick(&hosts(members)))
}

/// The hosts of a member set.
pub fn hosts(members: u64) -> Vec<u64> {
    (0..16).filter(|host| members >> host & 1 == 1).collect()
}

/// A sequencer for each shard: another shard, and none for two.
pub fn sequencers(random: &mut Random, shards: u64) -> Vec<u64> {
    let mut sequencers: Vec<u64> = (0..shards).collect();
    loop {
        random.shuffle(&mut sequencers);
        if (0..).zip(&sequencers).all(|(shard, &sequencer)| shard != sequencer) {
            return sequencers;
        }
    }
}

/// A plan that setup accepts.
pub fn plan(random: &mut Random, shards: u64) -> Vec<u64> {
    let sequencers = sequencers(random, shards);
    let lines = sequencers.into_iter().map(|sequencer| {
        let (members, orderer) = configuration(random);
        [sequencer, members, orderer]
    });
    lines.flatten().collect()
}
