//! The claims that are made of every run: one accepted setup, and then any steps.
//!
//! A [`Claims`] is told each moment of a run, reads the words itself, and says which claim a moment breaks:
//! - the stable prefixes of a shard's replicas agree, at one moment and across moments;
//! - the shard's reference shard can follow: it accepts entries that are offered, none twice, and its history is the
//!   shard's stable history at every moment;
//! - no stable prefix shrinks, and no replica vanishes;
//! - every configuration after the first is the first issue for its shard and index in its sequencer's stable history;
//! - no history holds two issues for one shard and index, and no step is rejected with 22;
//! - every replica after index 1 that is not pending became so by an accepted inherit, with the history and stable
//!   length of the source, or by an accepted catch-up, with those of a peer that had begun before; its origin names that
//!   source, or the one that the peer began from, ever since; the source is immutable and stays as it was;
//! - every configuration that another one follows has an immutable replica, a source for those that are pending, and
//!   immutable replicas stay as they are.

mod beginnings;
mod reference;
mod violation;
mod wedges;

use crate::rejection::Rejection;
use crate::seat::Seat;
use crate::step::Step;
use crate::view::{Replica, View, is_issue_for, issue, issued_for};
use beginnings::{Beginnings, Change};
use reference::Reference;
pub use violation::Violation;

/// What was seen of a run so far.
pub struct Claims {
    /// The words at the last moment.
    words: Vec<u64>,
    references: Vec<Reference>,
    beginnings: Beginnings,
}

impl Claims {
    /// The moment after an accepted setup.
    pub fn after_setup(words: &[u64]) -> Result<Claims, Violation> {
        let view = View::new(words);
        for shard in 0..view.shards() {
            let fresh = |replica: Replica| replica.history().is_empty() && replica.origin() == 0;
            if view.installed(shard) != 1 || !view.all_replicas(shard).all(fresh) {
                return Err(Violation::SetupNotEmpty);
            }
        }
        Ok(Claims {
            words: words.to_vec(),
            references: (0..view.shards()).map(|_| Reference::default()).collect(),
            beginnings: Beginnings::default(),
        })
    }

    /// The moment after a step that got this answer.
    pub fn after_step(&mut self, step: Step, answer: u64, words: &[u64]) -> Result<(), Violation> {
        if step.kind == 1 && answer == 0 {
            let [shard, _, entry, _] = step.numbers;
            self.references[shard as usize].offer(entry);
        }
        let changed = self.changed(words);
        if answer != 0 && !changed.is_empty() {
            return Err(Violation::ChangedByRejection);
        }
        if answer == Rejection::EarlierIssue.number() {
            return Err(Violation::EarlierIssue);
        }
        let now = View::new(words);
        // Told last, after the other claims.
        let mut last = Ok(());
        for &shard in &changed {
            let before = View::new(&self.words);
            keeps_replicas(before, now, shard)?;
            issues_once(before, now, shard)?;
            last = last
                .and(self.beginnings.follow(Change { before, now, step }, shard))
                .and(wedges::check(before, now, shard));
            self.follow(now, shard)?;
            self.remember(now, shard);
        }
        for &shard in &changed {
            self.check_issued(now, shard)?;
            self.check_issued(now, now.sequenced(shard))?;
        }
        last
    }

    /// The shards with other words than at the last moment.
    fn changed(&self, words: &[u64]) -> Vec<u64> {
        let (before, now) = (View::new(&self.words), View::new(words));
        (0..now.shards()).filter(|&shard| before.block(shard) != now.block(shard)).collect()
    }

    /// The history of a shard's reference shard.
    pub fn reference(&self, shard: u64) -> &[u64] {
        self.references[shard as usize].history()
    }

    /// The hosts from which a replica's history came, nearest first, by the inherits and catch-ups of the run.
    pub fn trace(&self, seat: Seat) -> Vec<u64> {
        self.beginnings.trace(seat)
    }

    /// How many catch-ups brought a replica the history that one of its configuration inherited.
    pub fn catch_ups(&self, seat: Seat) -> u64 {
        self.beginnings.catch_ups(seat)
    }

    /// The reference shard accepts what became stable; then every stable prefix begins its history.
    fn follow(&mut self, now: View, shard: u64) -> Result<(), Violation> {
        let reference = &mut self.references[shard as usize];
        reference.follow(longest_stable(now, shard))?;
        match now
            .all_replicas(shard)
            .all(|replica| reference.history().starts_with(replica.stable()))
        {
            true => Ok(()),
            false => Err(Violation::Disagrees),
        }
    }

    fn remember(&mut self, now: View, shard: u64) {
        let block = now.block(shard);
        self.words[shard as usize * block.len()..][..block.len()].copy_from_slice(block);
    }

    /// Every configuration of a shard after its first is the first issue for it.
    fn check_issued(&self, now: View, shard: u64) -> Result<(), Violation> {
        let stable = self.reference(now.sequencer(shard));
        for index in 2..=now.installed(shard) {
            let first = stable.iter().find(|&&entry| is_issue_for(entry, shard, index));
            let (orderer, members) = (now.orderer(shard, index), now.members(shard, index));
            if first != Some(&issue(index, shard, orderer, members)) {
                return Err(Violation::NotFirstIssue);
            }
        }
        Ok(())
    }
}

/// Every replica is still there, and its stable prefix begins the one that it has now.
fn keeps_replicas(before: View, now: View, shard: u64) -> Result<(), Violation> {
    for old in before.all_replicas(shard) {
        let new = now.replica(shard, old.index, old.host).ok_or(Violation::Vanished)?;
        if !new.stable().starts_with(old.stable()) {
            return Err(Violation::Shrinks);
        }
    }
    Ok(())
}

/// No history that changed holds two issues for one shard and index.
fn issues_once(before: View, now: View, shard: u64) -> Result<(), Violation> {
    for new in now.all_replicas(shard) {
        let old = before.replica(shard, new.index, new.host);
        let changed = old.is_none_or(|old| old.history() != new.history());
        if changed && has_second_issue(new.history()) {
            return Err(Violation::SecondIssue);
        }
    }
    Ok(())
}

fn has_second_issue(history: &[u64]) -> bool {
    let issued: Vec<(u64, u64)> = history.iter().filter_map(|&entry| issued_for(entry)).collect();
    (1..issued.len()).any(|place| issued[..place].contains(&issued[place]))
}

/// Of equally long stable prefixes the lowest index's, then the lowest replica's.
fn longest_stable<'a>(view: View<'a>, shard: u64) -> &'a [u64] {
    let longer = |longest: &'a [u64], replica: Replica<'a>| match replica.stable() {
        stable if stable.len() > longest.len() => stable,
        _ => longest,
    };
    view.all_replicas(shard).fold(&[], longer)
}
