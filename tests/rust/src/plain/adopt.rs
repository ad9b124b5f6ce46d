use super::configuration::installed;
use super::layout::*;
use super::state::State;
use crate::rejection::Rejection;

impl State<'_> {
    /// The orderer's history replaces the host's.
    pub(crate) fn adopt(&mut self, shard: usize, index: u64, host: u64) -> Result<(), Rejection> {
        let shard = &mut self.shards[shard];
        let (configuration, first) = installed(shard, index).ok_or(Rejection::NotInstalled)?;
        let at = first + configuration.replica(host).ok_or(Rejection::NoMember)?;
        if host == configuration.orderer {
            return Err(Rejection::ByOrderer);
        }
        let replicas = replicas_mut(shard);
        let orderer = first + configuration.orderer_replica();
        if replicas[at][MODE] != ACTIVE {
            return Err(Rejection::ActingMode);
        }
        if replicas[orderer][MODE] == PENDING {
            return Err(Rejection::OtherMode);
        }
        let (stable, origin) = (replicas[at][STABLE], replicas[at][ORIGIN]);
        replicas.copy_within(orderer..=orderer, at);
        let replica = &mut replicas[at];
        replica[MODE] = ACTIVE;
        replica[STABLE] = stable.max(replica[STABLE]).min(replica[LENGTH]);
        replica[ORIGIN] = origin;
        Ok(())
    }
}
