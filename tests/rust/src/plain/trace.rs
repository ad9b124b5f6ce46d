//! Where a replica got its history.

use std::iter::successors;

use super::configuration::replica_in;
use super::layout::{CONFIGURATIONS, ORIGIN, Replica, Shard};
use super::seats;
use crate::rejection::Rejection;
use crate::seat::Seat;

/// Hosts of a trace at most: one for each configuration before the last.
pub(crate) const HOSTS: usize = CONFIGURATIONS - 1;

/// Writes the hosts of a replica's source, of the source's source and so on, back to index 1; gives how many they are.
pub fn trace(words: &[u64], seat: Seat, out: &mut [u64]) -> Result<usize, Rejection> {
    let out: &mut [u64; HOSTS] = out.first_chunk_mut().ok_or(Rejection::OutputShort)?;
    let (shard, replica) = seats::find(words, seat)?;
    let mut count = 0;
    for (word, source) in out.iter_mut().zip(sources(shard, seat.index as usize - 1, replica)) {
        *word = source.host;
        count += 1;
    }
    Ok(count)
}

/// The host of a configuration, counted from 0, whose history a replica of the next one began with.
pub(crate) struct Source {
    j: usize,
    pub(crate) host: u64,
}

/// The sources of a replica of configuration `j`, nearest first: none where it is pending or of the first.
pub(crate) fn sources(shard: &Shard, j: usize, replica: &Replica) -> impl Iterator<Item = Source> {
    successors(source(j, replica), |&Source { j, host }| source(j, replica_in(shard, j, host)?))
}

/// The source of a replica of configuration `j`, if it has one.
fn source(j: usize, replica: &Replica) -> Option<Source> {
    let host = replica[ORIGIN].checked_sub(1)?;
    Some(Source { j: j - 1, host })
}
