//! A step that was tried.

use crate::step::Step;
use crate::view::View;

#[derive(Clone, Copy)]
pub struct Tried {
    pub step: Step,
    pub answer: u64,
    /// Whether it is an adopt that, if accepted, had its stable length capped.
    pub capped: bool,
}

/// Whether an adopt, if accepted, has its stable length capped.
pub fn caps(view: View, step: Step) -> bool {
    let [shard, index, host, _] = step.numbers;
    if step.kind != 2 || shard >= view.shards() {
        return false;
    }
    let Some(own) = view.replica(shard, index, host) else {
        return false;
    };
    let orderer = view.replica(shard, index, view.orderer(shard, index));
    orderer.is_some_and(|orderer| own.stable().len() > orderer.history().len())
}
