//! Where the words of a state stand.

use std::ops::RangeInclusive;

/// Words of one shard.
pub const SHARD_WORDS: usize = HEAD_WORDS + CONFIGURATIONS * REPLICAS * REPLICA_WORDS;
/// Entries that a history holds at most.
pub const HISTORY: usize = 56;

pub const SHARDS: RangeInclusive<usize> = 2..=8;
pub const HEAD_WORDS: usize = 64;
pub const CONFIGURATIONS: usize = 8;
pub const REPLICAS: usize = 4;
pub const REPLICA_WORDS: usize = 64;

/// Head words: the sequencer, the installed count, and the first words of member sets and orderers.
pub const SEQUENCER: usize = 0;
pub const INSTALLED: usize = 1;
pub const MEMBERS: usize = 2;
pub const ORDERERS: usize = MEMBERS + CONFIGURATIONS;
pub const HEAD_USED: usize = ORDERERS + CONFIGURATIONS;

/// Replica words: mode, length, stable length, origin (the source host + 1, or 0), the first that is kept 0, and the
/// first entry.
pub const MODE: usize = 0;
pub const LENGTH: usize = 1;
pub const STABLE: usize = 2;
pub const ORIGIN: usize = 3;
pub const RESERVED: usize = 4;
pub const ENTRIES: usize = 8;

pub const PENDING: u64 = 1;
pub const ACTIVE: u64 = 2;
pub const IMMUTABLE: u64 = 3;

pub type Shard = [u64; SHARD_WORDS];
pub type Replica = [u64; REPLICA_WORDS];

/// How many shards a state of so many words has, if that is a state's length. It divides, and is to stay so: the proved
/// side compares with the seven lengths, and the tests hold that against this.
pub fn shard_count(words: usize) -> Option<usize> {
    let shards = words / SHARD_WORDS;
    (words.is_multiple_of(SHARD_WORDS) && SHARDS.contains(&shards)).then_some(shards)
}

/// The length of a state of so many shards: 0 where there is none.
pub fn state_words(shards: u64) -> u64 {
    match usize::try_from(shards) {
        Ok(shards) if SHARDS.contains(&shards) => (shards * SHARD_WORDS) as u64,
        _ => 0,
    }
}

/// The replicas of a shard, four for each configuration.
pub fn replicas(shard: &Shard) -> &[Replica] {
    shard[HEAD_WORDS..].as_chunks().0
}

pub fn replicas_mut(shard: &mut Shard) -> &mut [Replica] {
    shard[HEAD_WORDS..].as_chunks_mut().0
}

/// The history of a replica in a well-formed state.
pub fn history(replica: &Replica) -> &[u64] {
    &replica[ENTRIES..][..replica[LENGTH] as usize]
}

/// The stable prefix of a replica in a well-formed state.
pub fn stable_prefix(replica: &Replica) -> &[u64] {
    &replica[ENTRIES..][..replica[STABLE] as usize]
}
