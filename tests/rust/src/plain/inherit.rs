use super::beginning::{begin, other, pending};
use super::layout::*;
use super::state::State;
use crate::rejection::Rejection;

impl State<'_> {
    /// The pending replica takes over the history of an immutable one of the configuration before.
    pub(crate) fn inherit(
        &mut self,
        shard: usize,
        index: u64,
        host: u64,
        source: u64,
    ) -> Result<(), Rejection> {
        let shard = &mut self.shards[shard];
        let at = pending(shard, index, host)?;
        // A pending replica is not of index 1, so there is a configuration before.
        let from = other(shard, index - 1, source, |mode| mode == IMMUTABLE)?;
        begin(shard, at, from)[ORIGIN] = source + 1;
        Ok(())
    }
}
