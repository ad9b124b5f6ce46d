use super::configuration::installed;
use super::layout::*;
use super::state::State;
use crate::rejection::Rejection;

impl State<'_> {
    /// The host learns that the first `length` entries are persistent: all replicas of the configuration have them.
    pub(crate) fn learn(
        &mut self,
        shard: usize,
        index: u64,
        host: u64,
        length: u64,
    ) -> Result<(), Rejection> {
        let shard = &mut self.shards[shard];
        let (configuration, first) = installed(shard, index).ok_or(Rejection::NotInstalled)?;
        let at = configuration.replica(host).ok_or(Rejection::NoMember)?;
        let replicas = &mut replicas_mut(shard)[first..][..configuration.size()];
        if replicas[at][MODE] != ACTIVE {
            return Err(Rejection::ActingMode);
        }
        if length <= replicas[at][STABLE] {
            return Err(Rejection::NotAboveStable);
        }
        if !are_alike(replicas, length as usize) {
            return Err(Rejection::NotAlike);
        }
        replicas[at][STABLE] = length;
        Ok(())
    }
}

/// Whether all histories are at least that long and have the same entries that far.
fn are_alike(replicas: &[Replica], length: usize) -> bool {
    let Some(prefix) = history(&replicas[0]).get(..length) else {
        return false;
    };
    replicas[1..].iter().all(|replica| history(replica).starts_with(prefix))
}
