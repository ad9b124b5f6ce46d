//! Which catch-ups a test met.

use std::fmt;

use crate::step::Step;
use crate::view::{ACTIVE, View};

/// Counts of catch-ups, by what their peer was.
#[derive(Debug, Default)]
pub struct CatchUps {
    /// Accepted ones by their index.
    pub indices: [u64; 9],
    /// Accepted ones with an active or an immutable peer.
    pub active: u64,
    pub immutable: u64,
    /// Accepted ones with a peer that had caught up itself; only runs from setup tell.
    pub again: u64,
    /// Ones rejected with 13: the peer was no member, pending, or the acting host itself.
    pub no_member: u64,
    pub pending: u64,
    pub own: u64,
}

impl CatchUps {
    /// Notes a catch-up that was tried, with its answer and the state that it left.
    pub fn note(&mut self, step: Step, answer: u64, after: View) {
        let [shard, index, host, peer] = step.numbers;
        match answer {
            0 => {
                self.indices[index as usize] += 1;
                match after.replica(shard, index, peer) {
                    Some(replica) if replica.mode() == ACTIVE => self.active += 1,
                    _ => self.immutable += 1,
                }
            }
            13 if host == peer => self.own += 1,
            13 if after.replica(shard, index, peer).is_some() => self.pending += 1,
            13 => self.no_member += 1,
            _ => (),
        }
    }

    /// Whether there were so many of each sort, and some in every index from 2 to 8.
    pub fn are_complete(&self, least: u64) -> bool {
        let sorts = [self.active, self.immutable, self.no_member, self.pending, self.own];
        sorts.iter().all(|&count| count >= least) && self.indices[2..].iter().all(|&n| n > 0)
    }
}

impl fmt::Display for CatchUps {
    fn fmt(&self, f: &mut fmt::Formatter<'_>) -> fmt::Result {
        let CatchUps { indices, active, immutable, again, no_member, pending, own } = self;
        write!(
            f,
            "catch-ups in index 2 to 8: {:?}; peers active: {active}, immutable: {immutable}, caught up themselves: \
             {again}; rejected, no member: {no_member}, pending: {pending}, itself: {own}",
            &indices[2..]
        )
    }
}
