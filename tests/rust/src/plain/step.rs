//! One step.

use super::kind::Kind;
use super::layout::shard_count;
use super::range;
use super::state::State;
use crate::rejection::Rejection;
use crate::step::Step;

/// Tries a step on borrowed words that may hold anything.
pub fn step(words: &mut [u64], Step { kind, numbers }: Step) -> Result<(), Rejection> {
    let shards = shard_count(words.len()).ok_or(Rejection::StateLength)?;
    let kind = Kind::of(kind)?;
    range::check(kind, numbers, shards)?;
    State::check(words)?.apply(kind, numbers)
}

impl State<'_> {
    /// Tries a step without a scan.
    pub fn step(&mut self, Step { kind, numbers }: Step) -> Result<(), Rejection> {
        let kind = Kind::of(kind)?;
        range::check(kind, numbers, self.shards.len())?;
        self.apply(kind, numbers)
    }

    /// The numbers are in range.
    pub(crate) fn apply(
        &mut self,
        kind: Kind,
        [shard, index, c, d]: [u64; 4],
    ) -> Result<(), Rejection> {
        let shard = shard as usize;
        match kind {
            Kind::Add => self.add(shard, index, c),
            Kind::Adopt => self.adopt(shard, index, c),
            Kind::Learn => self.learn(shard, index, c, d),
            Kind::Wedge => self.wedge(shard, index, c),
            Kind::Install => self.install(shard, index, c, d as usize),
            Kind::Inherit => self.inherit(shard, index, c, d),
            Kind::CatchUp => self.catch_up(shard, index, c, d),
        }
    }
}
