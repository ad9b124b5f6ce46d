//! Wedged first: what every configuration has that another one follows, and what becomes of immutable replicas.

use super::violation::Violation;
use crate::view::{IMMUTABLE, View};

/// Immutable replicas of a shard are as they were, and every configuration before its newest one has some: a replica of
/// the next one that is pending can inherit from these.
pub fn check(before: View, now: View, shard: u64) -> Result<(), Violation> {
    for old in before.all_replicas(shard).filter(|old| old.mode() == IMMUTABLE) {
        let new = now.replica(shard, old.index, old.host).ok_or(Violation::Vanished)?;
        if new.words() != old.words() {
            return Err(Violation::ImmutableChanged);
        }
    }
    match (1..now.installed(shard)).all(|index| now.is_wedged(shard, index)) {
        true => Ok(()),
        false => Err(Violation::NoSource),
    }
}
