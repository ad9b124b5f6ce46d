//! Installs with one error each.

use crate::step::Step;
use crate::testing::next::write_next;
use crate::view::{View, is_issue_for};

/// Installs what is issued at a place of the history, stable or not.
pub fn unstable(words: &mut [u64], view: View, step: Step) -> u64 {
    let [shard, ..] = step.numbers;
    match issue(view, step) {
        Some(issue) if view.is_newest_wedged(shard) => {
            write_next(words, shard, issue);
            0
        }
        _ => 20,
    }
}

/// Installs a stable issue whatever the newest configuration is.
pub fn unwedged(words: &mut [u64], view: View, step: Step) -> u64 {
    let issue = issue(view, step).expect("an issue of the next configuration");
    write_next(words, step.numbers[0], issue);
    0
}

/// Installs a stable issue, or leaves the words as they were, as the newest configuration of the sequencer says.
pub fn sequencer_wedged(words: &mut [u64], view: View, step: Step) -> u64 {
    let [shard, ..] = step.numbers;
    words.copy_from_slice(view.words());
    match view.is_newest_wedged(view.sequencer(shard)) {
        true => unwedged(words, view, step),
        false => 24,
    }
}

/// The issue of the next configuration at the place of the history that the step names, if there is one.
fn issue(view: View, step: Step) -> Option<u64> {
    let [shard, index, host, place] = step.numbers;
    let next = view.installed(shard) + 1;
    let replica = view.replica(view.sequencer(shard), index, host)?;
    let &entry = replica.history().get(place as usize)?;
    (next <= 8 && is_issue_for(entry, shard, next)).then_some(entry)
}
