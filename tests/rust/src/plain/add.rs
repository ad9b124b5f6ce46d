use super::configuration::installed;
use super::entry::Issue;
use super::layout::*;
use super::state::State;
use crate::rejection::Rejection;

impl State<'_> {
    /// The entry goes last in the history of the orderer.
    pub(super) fn add(&mut self, shard: usize, index: u64, entry: u64) -> Result<(), Rejection> {
        let (configuration, first) =
            installed(&self.shards[shard], index).ok_or(Rejection::NotInstalled)?;
        let at = first + configuration.orderer_replica();
        if replicas(&self.shards[shard])[at][MODE] != ACTIVE {
            return Err(Rejection::ActingMode);
        }
        if Issue::of(entry).is_some_and(|issue| !self.is_sequencer(shard, &issue)) {
            return Err(Rejection::OtherSequencer);
        }
        append(&mut replicas_mut(&mut self.shards[shard])[at], entry)
    }

    pub(crate) fn is_sequencer(&self, shard: usize, issue: &Issue) -> bool {
        self.shards[issue.shard() as usize][SEQUENCER] == shard as u64
    }
}

fn append(replica: &mut Replica, entry: u64) -> Result<(), Rejection> {
    let history = history(replica);
    let length = history.len();
    if history.contains(&entry) {
        return Err(Rejection::EntryHeld);
    }
    if Issue::of(entry).is_some_and(|issue| history.iter().any(|&held| issue.rivals(held))) {
        return Err(Rejection::IndexIssued);
    }
    if length == HISTORY {
        return Err(Rejection::HistoryFull);
    }
    replica[ENTRIES + length] = entry;
    replica[LENGTH] += 1;
    Ok(())
}
