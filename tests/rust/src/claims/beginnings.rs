//! How replicas began: pending, and then by an accepted inherit from a source, or by catching up from a peer that had
//! begun before them.

use std::collections::HashMap;

use super::violation::Violation;
use crate::seat::Seat;
use crate::step::Step;
use crate::view::{ACTIVE, IMMUTABLE, PENDING, Replica, View};

/// An accepted step, and the states before and after it.
#[derive(Clone, Copy)]
pub struct Change<'a> {
    pub before: View<'a>,
    pub now: View<'a>,
    pub step: Step,
}

/// The host that an inherit named, and the words of its replica at that moment.
#[derive(Clone)]
struct Beginning {
    source: u64,
    words: Vec<u64>,
    /// Catch-ups between that inherit and the replica: 0 where it inherited itself.
    catch_ups: u64,
}

/// The replicas after index 1 that were seen, and how they began: nothing as long as they are pending.
#[derive(Default)]
pub struct Beginnings {
    seen: HashMap<Seat, Option<Beginning>>,
}

impl Beginnings {
    /// The moment after a step that changed the shard.
    pub fn follow(&mut self, change: Change, shard: u64) -> Result<(), Violation> {
        for replica in change.now.all_replicas(shard) {
            let seat = Seat { shard, index: replica.index, host: replica.host };
            if replica.index > 1 {
                self.see(change, seat, replica)?;
            }
            self.check(change.now, seat, replica)?;
        }
        Ok(())
    }

    /// The hosts from which a replica's history came, nearest first, by the steps alone.
    pub fn trace(&self, seat: Seat) -> Vec<u64> {
        let mut hosts = Vec::new();
        let mut seat = seat;
        while let Some(Beginning { source, .. }) = self.get(seat) {
            hosts.push(*source);
            seat = Seat { index: seat.index - 1, host: *source, ..seat };
        }
        hosts
    }

    /// How many catch-ups brought a replica the history that one inherited.
    pub fn catch_ups(&self, seat: Seat) -> u64 {
        self.get(seat).map_or(0, |beginning| beginning.catch_ups)
    }

    fn get(&self, seat: Seat) -> Option<&Beginning> {
        self.seen.get(&seat)?.as_ref()
    }

    /// Notes a replica that is pending, and how it began where it is so no longer.
    fn see(&mut self, change: Change, seat: Seat, replica: Replica) -> Result<(), Violation> {
        match (self.seen.get(&seat), replica.mode() == PENDING) {
            (None, true) => drop(self.seen.insert(seat, None)),
            (Some(None), false) => {
                let beginning = self.beginning(change, seat, replica);
                self.seen.insert(seat, Some(beginning.ok_or(Violation::WrongBeginning)?));
            }
            (Some(None), true) | (Some(Some(_)), false) => (),
            // It was never pending, or is so again.
            (None, false) | (Some(Some(_)), true) => return Err(Violation::WrongBeginning),
        }
        Ok(())
    }

    /// The beginning of a replica that was pending until this step: as the source is now, or as the peer was before.
    fn beginning(&self, change: Change, seat: Seat, replica: Replica) -> Option<Beginning> {
        let Change { before, now, step } = change;
        let Seat { shard, index, host } = seat;
        let [.., other] = step.numbers;
        let (from, beginning) = match step {
            _ if step == Step::inherit(shard, index, host, other) => {
                let source = now.replica(shard, index - 1, other)?;
                let words = source.words().to_vec();
                (source, Beginning { source: other, words, catch_ups: 0 })
            }
            _ if step == Step::catch_up(shard, index, host, other) => {
                let begun = self.get(Seat { host: other, ..seat })?.clone();
                let peer = before.replica(shard, index, other)?;
                (peer, Beginning { catch_ups: begun.catch_ups + 1, ..begun })
            }
            _ => return None,
        };
        is_copy(replica, from).then_some(beginning)
    }

    /// The origin is that of the beginning, and the source is as it was then.
    fn check(&self, now: View, seat: Seat, replica: Replica) -> Result<(), Violation> {
        let Some(Beginning { source, words, .. }) = self.get(seat) else {
            return match replica.origin() {
                0 => Ok(()),
                _ => Err(Violation::OtherOrigin),
            };
        };
        if replica.origin() != source + 1 {
            return Err(Violation::OtherOrigin);
        }
        match now.replica(seat.shard, seat.index - 1, *source) {
            Some(source) if source.mode() == IMMUTABLE && source.words() == words => Ok(()),
            _ => Err(Violation::SourceChanged),
        }
    }
}

/// Whether a replica is active and has the history and stable length of another one. Its origin is checked apart.
fn is_copy(replica: Replica, of: Replica) -> bool {
    let alike = replica.history() == of.history() && replica.stable() == of.stable();
    replica.mode() == ACTIVE && alike
}
