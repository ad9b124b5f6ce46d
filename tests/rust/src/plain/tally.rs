//! A log's steps, tried in order, with the rejections told by host.

use super::configuration::Configuration;
use super::kind::Kind;
use super::state::State;
use crate::rejection::Rejection;
use crate::report::Report;
use crate::step::Step;
use crate::tally::Tally;

/// A replay that counts its rejections in a tally, from zero. A rejected replay leaves the tally as it was.
pub fn replay_tally(
    words: &mut [u64],
    log: &[u8],
    budget: u64,
    tally: &mut Tally,
) -> Result<Report, Rejection> {
    let mut state = State::check(words)?;
    *tally = Tally::default();
    Ok(state.replay(log, budget, |state, step, answer| {
        if let Err(rejection) = answer {
            tally.count(state.named_host(step, rejection));
        }
    }))
}

impl State<'_> {
    /// The host that a rejected step names, whatever its number is; for add, the orderer of the configuration, if there
    /// is one.
    pub(crate) fn named_host(&self, step: Step, rejection: Rejection) -> Option<u64> {
        let [shard, index, host, _] = step.numbers;
        match (Kind::of(step.kind), rejection) {
            (Ok(Kind::Add), Rejection::Range | Rejection::NotInstalled) => None,
            (Ok(Kind::Add), _) => {
                let shard = &self.shards[shard as usize];
                Some(Configuration::of_head(shard, index as usize - 1).orderer)
            }
            _ => Some(host),
        }
    }
}
