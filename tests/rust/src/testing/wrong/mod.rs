//! Machines with one error each, of those that document 01 warns of and a few more.
//!
//! Replica words: 0 mode, 1 length, 2 stable length, 3 origin, 8 to 63 entries.

mod installs;

use crate::claims::Violation;
use crate::plain;
use crate::rejection::number_of;
use crate::step::Step;
use crate::view::{ACTIVE, HISTORY, PENDING, View};

/// An error that a good engineer makes.
#[derive(Clone, Copy, Debug, PartialEq, Eq)]
pub enum Wrong {
    /// Adopt lowers a stable length to the orderer's.
    AdoptLowers,
    /// Adopt from a pending orderer, which empties a history.
    AdoptPending,
    /// Learn counts a majority.
    LearnMajority,
    /// Learn skips pending replicas.
    LearnSkipsPending,
    /// Add takes a second issue for a shard and index.
    AddRival,
    /// Install takes an issue that is not stable yet.
    InstallUnstable,
    /// Install where no replica of the newest configuration is immutable.
    InstallUnwedged,
    /// Install looks for an immutable replica in the newest configuration of the sequencer.
    InstallSequencerWedged,
    /// Inherit from a replica that is still active.
    InheritActive,
    /// Adopt copies the orderer's origin.
    AdoptOrigin,
    /// Inherit copies the source's origin.
    InheritOrigin,
    /// Catch up from a peer that is pending.
    CatchUpPending,
    /// Catch up without the peer's origin.
    CatchUpOrigin,
}

impl Wrong {
    pub const ALL: [Wrong; 13] = [
        Wrong::AdoptLowers,
        Wrong::AdoptPending,
        Wrong::LearnMajority,
        Wrong::LearnSkipsPending,
        Wrong::AddRival,
        Wrong::InstallUnstable,
        Wrong::InstallUnwedged,
        Wrong::InstallSequencerWedged,
        Wrong::InheritActive,
        Wrong::AdoptOrigin,
        Wrong::InheritOrigin,
        Wrong::CatchUpPending,
        Wrong::CatchUpOrigin,
    ];

    /// The claims that the error can break first.
    pub fn violations(self) -> &'static [Violation] {
        match self {
            Wrong::AdoptLowers | Wrong::AdoptPending => &[Violation::Shrinks],
            Wrong::AddRival => &[Violation::SecondIssue],
            Wrong::InstallUnstable => &[Violation::NotFirstIssue],
            Wrong::InstallUnwedged | Wrong::InstallSequencerWedged => &[Violation::NoSource],
            Wrong::InheritActive => &[Violation::SourceChanged],
            Wrong::CatchUpPending => &[Violation::WrongBeginning],
            Wrong::AdoptOrigin | Wrong::InheritOrigin | Wrong::CatchUpOrigin => {
                &[Violation::OtherOrigin]
            }
            Wrong::LearnMajority | Wrong::LearnSkipsPending => {
                &[Violation::Disagrees, Violation::Shrinks, Violation::Twice]
            }
        }
    }

    /// The right step, and the error where it applies. Gives the answer.
    pub fn step(self, words: &mut [u64], step: Step) -> u64 {
        let before = words.to_vec();
        let answer = number_of(&plain::step(words, step));
        let view = View::new(&before);
        match (self, step.kind, answer) {
            (Wrong::AdoptLowers, 2, 0) => adopt_word(words, view, step, 2),
            (Wrong::AdoptPending, 2, 13) => adopt_pending(words, view, step),
            (Wrong::LearnMajority, 3, 19) => {
                learn(words, view, step, |alike, _, size| 2 * alike > size)
            }
            (Wrong::LearnSkipsPending, 3, 19) => {
                learn(words, view, step, |alike, pending, size| alike + pending == size)
            }
            (Wrong::AddRival, 1, 23) => add_rival(words, view, step),
            (Wrong::InstallUnstable, 5, 20) => installs::unstable(words, view, step),
            (Wrong::InstallUnwedged, 5, 24) => installs::unwedged(words, view, step),
            (Wrong::InstallSequencerWedged, 5, 0 | 24) => {
                installs::sequencer_wedged(words, view, step)
            }
            (Wrong::InheritActive, 6, 13) => inherit_active(words, view, step),
            (Wrong::AdoptOrigin, 2, 0) => adopt_word(words, view, step, 3),
            (Wrong::InheritOrigin, 6, 0) => inherit_origin(words, view, step),
            (Wrong::CatchUpPending, 7, 13) => catch_up_pending(words, view, step),
            (Wrong::CatchUpOrigin, 7, 0) => catch_up_origin(words, view, step),
            _ => answer,
        }
    }
}

/// Copies one more word of the orderer's replica.
fn adopt_word(words: &mut [u64], view: View, step: Step, word: usize) -> u64 {
    let [shard, index, host, _] = step.numbers;
    let orderer = view.place(shard, index, view.orderer(shard, index));
    words[view.place(shard, index, host) + word] = words[orderer + word];
    0
}

fn adopt_pending(words: &mut [u64], view: View, step: Step) -> u64 {
    let [shard, index, host, _] = step.numbers;
    let replica = &mut words[view.place(shard, index, host)..][..64];
    replica[1..3].fill(0);
    replica[8..].fill(0);
    0
}

/// Learns where enough replicas are like the acting one; the rule sees how many are, how many are pending, and all.
fn learn(
    words: &mut [u64],
    view: View,
    step: Step,
    enough: impl Fn(usize, usize, usize) -> bool,
) -> u64 {
    let [shard, index, host, length] = step.numbers;
    let own = view.replica(shard, index, host).map_or(&[][..], |replica| replica.history());
    let Some(prefix) = own.get(..length as usize) else {
        return 19;
    };
    let count = |wanted: &dyn Fn(&[u64], u64) -> bool| {
        let replicas = view.replicas(shard, index);
        replicas.filter(|replica| wanted(replica.history(), replica.mode())).count()
    };
    let alike = count(&|history, _| history.starts_with(prefix));
    let pending = count(&|_, mode| mode == PENDING);
    if !enough(alike, pending, count(&|_, _| true)) {
        return 19;
    }
    words[view.place(shard, index, host) + 2] = length;
    0
}

/// Adds the issue where there is room.
fn add_rival(words: &mut [u64], view: View, step: Step) -> u64 {
    let [shard, index, entry, _] = step.numbers;
    let replica = &mut words[view.place(shard, index, view.orderer(shard, index))..][..64];
    let length = replica[1] as usize;
    if length == HISTORY {
        return 16;
    }
    replica[8 + length] = entry;
    replica[1] += 1;
    0
}

fn inherit_active(words: &mut [u64], view: View, step: Step) -> u64 {
    let [shard, index, host, source] = step.numbers;
    match view.replica(shard, index - 1, source) {
        Some(replica) if replica.mode() == ACTIVE => {
            let from = view.place(shard, index - 1, source);
            let to = view.place(shard, index, host);
            words.copy_within(from..from + 64, to);
            words[to + 3] = source + 1;
            0
        }
        _ => 13,
    }
}

fn inherit_origin(words: &mut [u64], view: View, step: Step) -> u64 {
    let [shard, index, host, source] = step.numbers;
    let from = view.place(shard, index - 1, source);
    words[view.place(shard, index, host) + 3] = words[from + 3];
    0
}

/// Begins with the empty history of a pending peer. Its origin names some host of the configuration before whose replica
/// is not pending, so that the state stays well-formed.
fn catch_up_pending(words: &mut [u64], view: View, step: Step) -> u64 {
    let [shard, index, host, peer] = step.numbers;
    let mut before = view.replicas(shard, index - 1).filter(|replica| replica.mode() != PENDING);
    match (view.replica(shard, index, peer), before.next()) {
        (Some(_), Some(source)) => {
            let to = view.place(shard, index, host);
            (words[to], words[to + 3]) = (ACTIVE, source.host + 1);
            0
        }
        _ => 13,
    }
}

fn catch_up_origin(words: &mut [u64], view: View, step: Step) -> u64 {
    let [shard, index, host, _] = step.numbers;
    words[view.place(shard, index, host) + 3] = 0;
    0
}
