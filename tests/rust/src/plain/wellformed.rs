//! The whole check of a state.

use super::configuration::{Configuration, replica_in};
use super::entry::is_proper;
use super::layout::*;

/// Whether the shards of a state, 2 to 8 of them, are well-formed.
pub fn are_well_formed(shards: &[Shard]) -> bool {
    are_sequencers(shards.iter().map(|shard| shard[SEQUENCER]), shards.len())
        && shards.iter().all(|shard| is_shard(shard, shards.len()))
}

/// Whether every sequencer is another shard below the count, and no two are alike.
pub fn are_sequencers(sequencers: impl Iterator<Item = u64>, shards: usize) -> bool {
    let mut seen = 0u64;
    for (shard, sequencer) in sequencers.enumerate() {
        if sequencer >= shards as u64 || sequencer == shard as u64 || seen >> sequencer & 1 == 1 {
            return false;
        }
        seen |= 1 << sequencer;
    }
    true
}

fn is_shard(shard: &Shard, shards: usize) -> bool {
    let installed = shard[INSTALLED];
    if !(1..=CONFIGURATIONS as u64).contains(&installed) {
        return false;
    }
    let installed = installed as usize;
    let (used, unused) = replicas(shard).split_at(installed * REPLICAS);
    is_head_rest(shard, installed)
        && are_zero(unused.as_flattened())
        && used
            .chunks_exact(REPLICAS)
            .enumerate()
            .all(|(j, replicas)| is_configuration(shard, j, replicas, shards))
}

/// Whether the head words past the installed configurations are 0.
fn is_head_rest(shard: &Shard, installed: usize) -> bool {
    (installed..CONFIGURATIONS).all(|j| shard[MEMBERS + j] | shard[ORDERERS + j] == 0)
        && are_zero(&shard[HEAD_USED..HEAD_WORDS])
}

/// Whether configuration `j`, counted from 0, with its replicas is well-formed. Those before it are.
fn is_configuration(shard: &Shard, j: usize, replicas: &[Replica], shards: usize) -> bool {
    let configuration = Configuration::of_head(shard, j);
    if !configuration.is_proper() {
        return false;
    }
    let (used, unused) = replicas.split_at(configuration.size());
    are_zero(unused.as_flattened())
        && used
            .iter()
            .all(|replica| is_replica(replica, j == 0, shards) && is_origin(shard, j, replica))
}

fn is_replica(replica: &Replica, first: bool, shards: usize) -> bool {
    let (mode, length, stable) = (replica[MODE], replica[LENGTH], replica[STABLE]);
    if !(PENDING..=IMMUTABLE).contains(&mode) || length > HISTORY as u64 || stable > length {
        return false;
    }
    if mode == PENDING && (first || length != 0) {
        return false;
    }
    let (entries, rest) = replica[ENTRIES..].split_at(length as usize);
    are_zero(&replica[RESERVED..ENTRIES])
        && are_zero(rest)
        && entries.iter().all(|&entry| is_proper(entry, shards))
}

/// Whether a replica of configuration `j` has no origin where it is pending or of the first, and else one that names a
/// member of the configuration before whose replica is not pending.
fn is_origin(shard: &Shard, j: usize, replica: &Replica) -> bool {
    let origin = replica[ORIGIN];
    if j == 0 || replica[MODE] == PENDING {
        return origin == 0;
    }
    (1..=16).contains(&origin)
        && replica_in(shard, j - 1, origin - 1).is_some_and(|source| source[MODE] != PENDING)
}

fn are_zero(words: &[u64]) -> bool {
    words.iter().all(|&word| word == 0)
}
