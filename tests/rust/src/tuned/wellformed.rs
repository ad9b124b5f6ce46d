//! The whole check of a state.

use crate::plain::configuration::{Configuration, replica_in};
use crate::plain::layout::*;
use crate::plain::wellformed::are_sequencers;

/// Whether the shards of a state, 2 to 8 of them, are well-formed.
pub fn are_well_formed(shards: &[Shard]) -> bool {
    are_sequencers(shards.iter().map(|shard| shard[SEQUENCER]), shards.len())
        && shards.iter().all(|shard| is_shard(shard, shards.len()))
}

fn is_shard(shard: &Shard, shards: usize) -> bool {
    let installed = shard[INSTALLED];
    if !(1..=CONFIGURATIONS as u64).contains(&installed) {
        return false;
    }
    let installed = installed as usize;
    let (used, unused) = replicas(shard).split_at(installed * REPLICAS);
    are_zero(&shard[MEMBERS + installed..ORDERERS])
        && are_zero(&shard[ORDERERS + installed..HEAD_WORDS])
        && are_zero(unused.as_flattened())
        && used
            .chunks_exact(REPLICAS)
            .enumerate()
            .all(|(j, replicas)| is_configuration(shard, j, replicas, shards))
}

/// Whether configuration `j`, counted from 0, with its replicas is well-formed. Those before it are.
fn is_configuration(shard: &Shard, j: usize, replicas: &[Replica], shards: usize) -> bool {
    let configuration = Configuration::of_head(shard, j);
    if !configuration.is_proper() {
        return false;
    }
    let (used, unused) = replicas.split_at(configuration.size());
    let mut seen: &[u64] = &[];
    for replica in used {
        if !is_replica(replica, j == 0) {
            return false;
        }
        let entries = history(replica);
        if !seen.starts_with(entries) && !are_proper(entries, shards) {
            return false;
        }
        seen = entries;
    }
    are_zero(unused.as_flattened()) && are_origins(shard, j, used)
}

/// Whether a replica is well-formed but for its origin and its entries, whose number it tests.
fn is_replica(replica: &Replica, first: bool) -> bool {
    let (mode, length, stable) = (replica[MODE], replica[LENGTH], replica[STABLE]);
    if !(PENDING..=IMMUTABLE).contains(&mode) || length > HISTORY as u64 || stable > length {
        return false;
    }
    if mode == PENDING && (first || length != 0) {
        return false;
    }
    match length {
        0 => are_zero(&replica[RESERVED..]),
        _ => {
            are_zero(&replica[RESERVED..ENTRIES]) && are_zero(&replica[ENTRIES + length as usize..])
        }
    }
}

/// Whether the replicas of configuration `j` have proper origins. Where none of them and none of those before is pending,
/// an origin has to name a member of the configuration before, and no more.
fn are_origins(shard: &Shard, j: usize, used: &[Replica]) -> bool {
    let none_pending =
        |replicas: &[Replica]| replicas.iter().all(|replica| replica[MODE] != PENDING);
    let Some(before) = j.checked_sub(1) else {
        return used.iter().all(|replica| replica[ORIGIN] == 0);
    };
    if none_pending(&replicas(shard)[before * REPLICAS..][..REPLICAS]) && none_pending(used) {
        let members = shard[MEMBERS + before] << 1;
        return used
            .iter()
            .all(|replica| replica[ORIGIN] <= 16 && members >> replica[ORIGIN] & 1 == 1);
    }
    used.iter().all(|replica| is_origin(shard, j, replica))
}

/// Whether a replica of configuration `j` has no origin where it is pending or of the first, and else one that names a
/// member of the configuration before whose replica is not pending.
fn is_origin(shard: &Shard, j: usize, replica: &Replica) -> bool {
    let origin = replica[ORIGIN];
    if j == 0 || replica[MODE] == PENDING {
        return origin == 0;
    }
    (1..=16).contains(&origin)
        && replica_in(shard, j - 1, origin - 1).is_some_and(|source| source[MODE] != PENDING)
}

/// Whether words are proper entries. Most histories have takes alone.
fn are_proper(entries: &[u64], shards: usize) -> bool {
    are_takes(entries) || entries.iter().all(|&entry| is_proper(entry, shards))
}

/// Whether words are takes: neither a word nor the number before it has a bit from 32 on.
fn are_takes(entries: &[u64]) -> bool {
    entries.iter().fold(0, |bits, &entry| bits | entry | entry.wrapping_sub(1)) >> 32 == 0
}

/// Whether a word is a proper entry where there are so many shards.
pub fn is_proper(entry: u64, shards: usize) -> bool {
    // A mark and an index above it, in one comparison.
    entry.wrapping_sub(1) < (1 << 32) - 1
        || (258..=264).contains(&(entry >> 24))
            && (entry >> 20 & 0xf) < shards as u64
            && is_appointed(entry & 0xffff, entry >> 16 & 0xf)
}

/// Whether a set below 2^16 has one to four members, the orderer among them.
fn is_appointed(members: u64, orderer: u64) -> bool {
    let without_lowest = |set: u64| set & set.wrapping_sub(1);
    let past_four = without_lowest(without_lowest(without_lowest(without_lowest(members))));
    members >> orderer & 1 == 1 && past_four == 0
}

fn are_zero(words: &[u64]) -> bool {
    words.iter().fold(0, |bits, word| bits | word) == 0
}
