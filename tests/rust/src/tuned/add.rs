use super::state::State;
use crate::plain::configuration::installed;
use crate::plain::entry::Issue;
use crate::plain::layout::*;
use crate::rejection::Rejection;

impl State<'_> {
    /// The entry goes last in the history of the orderer.
    #[inline]
    pub(super) fn add(&mut self, shard: usize, index: u64, entry: u64) -> Result<(), Rejection> {
        let block = &self.0.shards[shard];
        let (configuration, first) = installed(block, index).ok_or(Rejection::NotInstalled)?;
        let at = first + configuration.orderer_replica();
        if replicas(block)[at][MODE] != ACTIVE {
            return Err(Rejection::ActingMode);
        }
        let issue = Issue::of(entry);
        if issue.as_ref().is_some_and(|issue| !self.0.is_sequencer(shard, issue)) {
            return Err(Rejection::OtherSequencer);
        }
        let replica = &mut replicas_mut(&mut self.0.shards[shard])[at];
        is_new(history(replica), entry, issue)?;
        let length = replica[LENGTH] as usize;
        if length == HISTORY {
            return Err(Rejection::HistoryFull);
        }
        replica[ENTRIES + length] = entry;
        replica[LENGTH] += 1;
        Ok(())
    }
}

/// Rejections 15 and 23. An issue that is held is one for its own shard and index, so one pass tells both.
fn is_new(history: &[u64], entry: u64, issue: Option<Issue>) -> Result<(), Rejection> {
    let Some(issue) = issue else {
        return match history.contains(&entry) {
            true => Err(Rejection::EntryHeld),
            false => Ok(()),
        };
    };
    match history.iter().any(|&held| issue.rivals(held)) {
        true if history.contains(&entry) => Err(Rejection::EntryHeld),
        true => Err(Rejection::IndexIssued),
        false => Ok(()),
    }
}
