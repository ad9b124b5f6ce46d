//! The replica that a caller means.

use super::configuration::installed;
use super::layout::{Replica, Shard, replicas, shard_count};
use super::wellformed::are_well_formed;
use crate::rejection::Rejection;
use crate::seat::Seat;

/// The shard and the replica of a seat: rejections 1, 7, 9, 10, 11.
pub fn find(words: &[u64], seat: Seat) -> Result<(&Shard, &Replica), Rejection> {
    let Seat { shard, index, host } = seat;
    let count = shard_count(words.len()).ok_or(Rejection::StateLength)?;
    if shard >= count as u64 || !(1..=8).contains(&index) || host > 15 {
        return Err(Rejection::Range);
    }
    let shards = words.as_chunks().0;
    if !are_well_formed(shards) {
        return Err(Rejection::NotWellFormed);
    }
    let shard = &shards[shard as usize];
    let (configuration, first) = installed(shard, index).ok_or(Rejection::NotInstalled)?;
    let at = first + configuration.replica(host).ok_or(Rejection::NoMember)?;
    Ok((shard, &replicas(shard)[at]))
}
