//! Stable histories of shards, and stable prefixes of replicas.

use super::layout::{self, STABLE, Shard, replicas, shard_count};
use super::seats;
use super::wellformed::are_well_formed;
use crate::rejection::Rejection;
use crate::seat::Seat;

/// Copies a shard's stable history to `out`; gives how many entries it has.
pub fn stable_history(words: &[u64], shard: u64, out: &mut [u64]) -> Result<usize, Rejection> {
    let count = shard_count(words.len()).ok_or(Rejection::StateLength)?;
    if shard >= count as u64 {
        return Err(Rejection::Range);
    }
    let shards = words.as_chunks().0;
    if !are_well_formed(shards) {
        return Err(Rejection::NotWellFormed);
    }
    copy(longest_stable(&shards[shard as usize]), out)
}

/// Copies the stable prefix of a replica to `out`; gives how many entries it has.
pub fn stable_prefix(words: &[u64], seat: Seat, out: &mut [u64]) -> Result<usize, Rejection> {
    let (_, replica) = seats::find(words, seat)?;
    copy(layout::stable_prefix(replica), out)
}

/// The longest stable prefix; of equally long ones the lowest index's, then the lowest replica's.
pub fn longest_stable(shard: &Shard) -> &[u64] {
    let replicas = replicas(shard);
    let mut longest = &replicas[0];
    for replica in &replicas[1..] {
        if replica[STABLE] > longest[STABLE] {
            longest = replica;
        }
    }
    layout::stable_prefix(longest)
}

/// Copies entries to the start of `out`; gives how many they are.
pub(crate) fn copy(entries: &[u64], out: &mut [u64]) -> Result<usize, Rejection> {
    out.get_mut(..entries.len()).ok_or(Rejection::OutputShort)?.copy_from_slice(entries);
    Ok(entries.len())
}
