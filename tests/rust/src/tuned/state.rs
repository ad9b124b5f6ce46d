//! A borrowed state that is known to be well-formed.

use super::wellformed::are_well_formed;
use crate::plain;
use crate::plain::layout::{Shard, shard_count};
use crate::rejection::Rejection;

/// Only `check` makes one, and every change through it leaves it well-formed.
pub struct State<'a>(pub(super) plain::State<'a>);

impl<'a> State<'a> {
    /// Scans the words once: rejections 1 and 9.
    pub fn check(words: &'a mut [u64]) -> Result<State<'a>, Rejection> {
        check(words)?;
        Ok(State(plain::State::scanned(words.as_chunks_mut().0)))
    }

    pub(super) fn shards(&self) -> &[Shard] {
        self.0.shards
    }
}

/// The shards of words that are well-formed: rejections 1 and 9.
pub fn check(words: &[u64]) -> Result<&[Shard], Rejection> {
    shard_count(words.len()).ok_or(Rejection::StateLength)?;
    let shards = words.as_chunks().0;
    match are_well_formed(shards) {
        true => Ok(shards),
        false => Err(Rejection::NotWellFormed),
    }
}
