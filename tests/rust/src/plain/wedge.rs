use super::configuration::installed;
use super::layout::*;
use super::state::State;
use crate::rejection::Rejection;

impl State<'_> {
    /// The host's replica becomes immutable.
    pub(crate) fn wedge(&mut self, shard: usize, index: u64, host: u64) -> Result<(), Rejection> {
        let shard = &mut self.shards[shard];
        let (configuration, first) = installed(shard, index).ok_or(Rejection::NotInstalled)?;
        let at = first + configuration.replica(host).ok_or(Rejection::NoMember)?;
        let mode = &mut replicas_mut(shard)[at][MODE];
        if *mode != ACTIVE {
            return Err(Rejection::ActingMode);
        }
        *mode = IMMUTABLE;
        Ok(())
    }
}
