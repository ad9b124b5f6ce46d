//! One step.

use super::state::State;
use super::wellformed::is_proper;
use crate::plain::kind::Kind;
use crate::plain::layout::{HISTORY, shard_count};
use crate::rejection::Rejection;
use crate::step::Step;

/// Tries a step on borrowed words that may hold anything.
pub fn step(words: &mut [u64], step: Step) -> Result<(), Rejection> {
    let shards = shard_count(words.len()).ok_or(Rejection::StateLength)?;
    let kind = ranged(step, shards)?;
    State::check(words)?.apply(kind, step.numbers)
}

/// The kind of a step whose numbers are in range: rejections 3, 4, 7.
fn ranged(
    Step { kind, numbers: [shard, index, c, d] }: Step,
    shards: usize,
) -> Result<Kind, Rejection> {
    let kind = Kind::of(kind)?;
    let (is_third, most) = match kind {
        Kind::Add => (is_proper(c, shards), 0),
        Kind::Adopt | Kind::Wedge => (c < 16, 0),
        Kind::Learn => (c < 16, HISTORY as u64),
        Kind::Install => (c < 16, HISTORY as u64 - 1),
        Kind::Inherit | Kind::CatchUp => (c < 16, 15),
    };
    match is_third && d <= most && shard < shards as u64 && index.wrapping_sub(1) < 8 {
        true => Ok(kind),
        false => Err(Rejection::Range),
    }
}

impl State<'_> {
    /// Tries a step without a scan: each kind tests its numbers, after one look at it.
    #[inline]
    pub fn step(&mut self, step: Step) -> Result<(), Rejection> {
        let Step { kind, numbers: [shard, index, c, d] } = step;
        let shards = self.shards().len();
        if shard >= shards as u64 || index.wrapping_sub(1) >= 8 {
            return ranged(step, shards).map(|_| ());
        }
        let (at, is_host) = (shard as usize, c < 16);
        match kind {
            1 if d == 0 && is_proper(c, shards) => self.add(at, index, c),
            2 if d == 0 && is_host => self.0.adopt(at, index, c),
            3 if d <= HISTORY as u64 && is_host => self.0.learn(at, index, c, d),
            4 if d == 0 && is_host => self.0.wedge(at, index, c),
            5 if d < HISTORY as u64 && is_host => self.0.install(at, index, c, d as usize),
            6 if d < 16 && is_host => self.0.inherit(at, index, c, d),
            7 if d < 16 && is_host => self.0.catch_up(at, index, c, d),
            1..=7 => Err(Rejection::Range),
            _ => ranged(step, shards).map(|_| ()),
        }
    }

    /// The numbers are in range.
    fn apply(&mut self, kind: Kind, [shard, index, c, d]: [u64; 4]) -> Result<(), Rejection> {
        match kind {
            Kind::Add => self.add(shard as usize, index, c),
            _ => self.0.apply(kind, [shard, index, c, d]),
        }
    }
}
