//! A log's steps, tried in order.

use super::reader::read_step;
use super::state::State;
use crate::rejection::Rejection;
use crate::report::{Report, Stop};
use crate::step::Step;

/// Scans the state once, then reads and tries steps, as many as the budget allows.
pub fn replay(words: &mut [u64], log: &[u8], budget: u64) -> Result<Report, Rejection> {
    Ok(State::check(words)?.replay(log, budget, |_, _, _| ()))
}

impl State<'_> {
    /// Hands each step that is tried to `tell`, with the state that it left and its answer.
    pub fn replay(
        &mut self,
        log: &[u8],
        budget: u64,
        mut tell: impl FnMut(&Self, Step, Result<(), Rejection>),
    ) -> Report {
        run(log, budget, read_step, |step| {
            let answer = self.step(step);
            tell(self, step, answer);
            answer
        })
    }
}

/// Reads steps in order and tries each, as many as the budget allows.
#[inline]
pub(crate) fn run(
    log: &[u8],
    budget: u64,
    read: impl Fn(&[u8], usize) -> Result<Option<(Step, usize)>, Rejection>,
    mut try_step: impl FnMut(Step) -> Result<(), Rejection>,
) -> Report {
    let (mut at, mut tried, mut rejected) = (0, 0, 0);
    let stop = loop {
        if at >= log.len() {
            break Stop::Ended;
        }
        if tried == budget {
            break Stop::Spent;
        }
        match read(log, at) {
            Ok(None) => break Stop::Ended,
            Err(damage) => break Stop::Damaged(damage),
            Ok(Some((step, after))) => {
                tried += 1;
                rejected += u64::from(try_step(step).is_err());
                at = after;
            }
        }
    };
    Report { stop, tried, rejected, bytes: at as u64 }
}
