use super::configuration::{installed, is_wedged};
use super::entry::Issue;
use super::layout::*;
use super::state::State;
use crate::rejection::Rejection;

impl State<'_> {
    /// The issue at a place of a replica of the shard's sequencer becomes the next configuration of the shard, whose
    /// newest one is wedged.
    pub(crate) fn install(
        &mut self,
        shard: usize,
        index: u64,
        host: u64,
        place: usize,
    ) -> Result<(), Rejection> {
        let sequencer = &self.shards[self.shards[shard][SEQUENCER] as usize];
        let (configuration, first) = installed(sequencer, index).ok_or(Rejection::NotInstalled)?;
        let at = first + configuration.replica(host).ok_or(Rejection::NoMember)?;
        let stable = stable_prefix(&replicas(sequencer)[at]);
        let issue = issue_at(stable, place, shard).ok_or(Rejection::NoStableIssue)?;
        if issue.index() != self.shards[shard][INSTALLED] + 1 {
            return Err(Rejection::NotNextIndex);
        }
        if !is_wedged(&self.shards[shard]) {
            return Err(Rejection::NotWedged);
        }
        if stable[..place].iter().any(|&entry| issue.rivals(entry)) {
            return Err(Rejection::EarlierIssue);
        }
        write(&mut self.shards[shard], &issue);
        Ok(())
    }
}

/// The issue at a place, if there is one and it is for the shard.
fn issue_at(stable: &[u64], place: usize, shard: usize) -> Option<Issue> {
    let issue = Issue::of(*stable.get(place)?)?;
    (issue.shard() == shard as u64).then_some(issue)
}

fn write(shard: &mut Shard, issue: &Issue) {
    let j = shard[INSTALLED] as usize;
    let configuration = issue.configuration();
    shard[INSTALLED] += 1;
    shard[MEMBERS + j] = configuration.members;
    shard[ORDERERS + j] = configuration.orderer;
    for replica in &mut replicas_mut(shard)[j * REPLICAS..][..configuration.size()] {
        replica[MODE] = PENDING;
    }
}
