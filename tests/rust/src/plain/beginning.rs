//! How a pending replica begins: as a copy of another replica, which inherit and catch-up choose.

use super::configuration::installed;
use super::layout::*;
use crate::rejection::Rejection;

/// The number of a host's replica, which is pending: rejections 10, 11, 12.
pub fn pending(shard: &Shard, index: u64, host: u64) -> Result<usize, Rejection> {
    let (configuration, first) = installed(shard, index).ok_or(Rejection::NotInstalled)?;
    let at = first + configuration.replica(host).ok_or(Rejection::NoMember)?;
    match replicas(shard)[at][MODE] {
        PENDING => Ok(at),
        _ => Err(Rejection::ActingMode),
    }
}

/// The number of the replica of a host to copy, which has a fit mode: rejection 13.
pub fn other(
    shard: &Shard,
    index: u64,
    host: u64,
    is_fit: impl Fn(u64) -> bool,
) -> Result<usize, Rejection> {
    let (configuration, first) = installed(shard, index).ok_or(Rejection::OtherMode)?;
    let from = first + configuration.replica(host).ok_or(Rejection::OtherMode)?;
    match is_fit(replicas(shard)[from][MODE]) {
        true => Ok(from),
        false => Err(Rejection::OtherMode),
    }
}

/// The replica at a number becomes an active copy of another one.
pub fn begin(shard: &mut Shard, at: usize, from: usize) -> &mut Replica {
    let replicas = replicas_mut(shard);
    replicas.copy_within(from..=from, at);
    replicas[at][MODE] = ACTIVE;
    &mut replicas[at]
}
