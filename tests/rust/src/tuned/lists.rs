//! Lists read off a state.

use super::state::check;
use crate::plain::configuration::installed;
use crate::plain::layout::{self, Replica, Shard, replicas, shard_count};
use crate::plain::stable::{copy, longest_stable};
use crate::plain::trace::{HOSTS, sources};
use crate::rejection::Rejection;
use crate::seat::Seat;

/// Copies a shard's stable history to `out`; gives how many entries it has.
pub fn stable_history(words: &[u64], shard: u64, out: &mut [u64]) -> Result<usize, Rejection> {
    let count = shard_count(words.len()).ok_or(Rejection::StateLength)?;
    if shard >= count as u64 {
        return Err(Rejection::Range);
    }
    copy(longest_stable(&check(words)?[shard as usize]), out)
}

/// Copies the stable prefix of a replica to `out`; gives how many entries it has.
pub fn stable_prefix(words: &[u64], seat: Seat, out: &mut [u64]) -> Result<usize, Rejection> {
    let (_, replica) = find(words, seat)?;
    copy(layout::stable_prefix(replica), out)
}

/// Writes the hosts of a replica's source, of the source's source and so on, back to index 1; gives how many they are.
pub fn trace(words: &[u64], seat: Seat, out: &mut [u64]) -> Result<usize, Rejection> {
    let out: &mut [u64; HOSTS] = out.first_chunk_mut().ok_or(Rejection::OutputShort)?;
    let (shard, replica) = find(words, seat)?;
    let mut count = 0;
    for (word, source) in out.iter_mut().zip(sources(shard, seat.index as usize - 1, replica)) {
        *word = source.host;
        count += 1;
    }
    Ok(count)
}

/// The shard and the replica of a seat: rejections 1, 7, 9, 10, 11.
fn find(words: &[u64], seat: Seat) -> Result<(&Shard, &Replica), Rejection> {
    let Seat { shard, index, host } = seat;
    let count = shard_count(words.len()).ok_or(Rejection::StateLength)?;
    if shard >= count as u64 || !(1..=8).contains(&index) || host > 15 {
        return Err(Rejection::Range);
    }
    let shard = &check(words)?[shard as usize];
    let (configuration, first) = installed(shard, index).ok_or(Rejection::NotInstalled)?;
    let at = first + configuration.replica(host).ok_or(Rejection::NoMember)?;
    Ok((shard, &replicas(shard)[at]))
}
