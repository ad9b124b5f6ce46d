//! A log's steps, tried in order.

use super::reader::read_step;
use super::state::State;
use crate::plain::replay::run;
use crate::rejection::Rejection;
use crate::report::Report;
use crate::tally::Tally;

/// Scans the state once, then reads and tries steps, as many as the budget allows.
pub fn replay(words: &mut [u64], log: &[u8], budget: u64) -> Result<Report, Rejection> {
    let mut state = State::check(words)?;
    Ok(run(log, budget, read_step, |step| state.step(step)))
}

/// A replay that counts its rejections in a tally, from zero. A rejected replay leaves the tally as it was.
pub fn replay_tally(
    words: &mut [u64],
    log: &[u8],
    budget: u64,
    tally: &mut Tally,
) -> Result<Report, Rejection> {
    let mut state = State::check(words)?;
    *tally = Tally::default();
    Ok(run(log, budget, read_step, |step| {
        let answer = state.step(step);
        if let Err(rejection) = answer {
            tally.count(state.0.named_host(step, rejection));
        }
        answer
    }))
}
