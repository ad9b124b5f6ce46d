//! A borrowed state that is known to be well-formed.

use super::layout::{Shard, shard_count};
use super::wellformed::are_well_formed;
use crate::rejection::Rejection;

/// Made of well-formed shards alone, and every change through it leaves it well-formed.
pub struct State<'a> {
    pub(crate) shards: &'a mut [Shard],
}

impl<'a> State<'a> {
    /// Scans the words once: rejections 1 and 9.
    pub fn check(words: &'a mut [u64]) -> Result<State<'a>, Rejection> {
        shard_count(words.len()).ok_or(Rejection::StateLength)?;
        let shards = words.as_chunks_mut().0;
        match are_well_formed(shards) {
            true => Ok(State { shards }),
            false => Err(Rejection::NotWellFormed),
        }
    }

    /// Shards that were scanned elsewhere, or written by a setup.
    pub(crate) fn scanned(shards: &'a mut [Shard]) -> State<'a> {
        State { shards }
    }

    pub fn words(&self) -> &[u64] {
        self.shards.as_flattened()
    }
}
