use super::beginning::{begin, other, pending};
use super::layout::*;
use super::state::State;
use crate::rejection::Rejection;

impl State<'_> {
    /// The pending replica takes over history, stable length and origin of a peer, a replica of the same configuration
    /// that is not pending.
    pub(crate) fn catch_up(
        &mut self,
        shard: usize,
        index: u64,
        host: u64,
        peer: u64,
    ) -> Result<(), Rejection> {
        let shard = &mut self.shards[shard];
        let at = pending(shard, index, host)?;
        let from = other(shard, index, peer, |mode| mode != PENDING)?;
        begin(shard, at, from);
        Ok(())
    }
}
