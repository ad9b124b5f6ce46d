//! Rejection 7 of a step: a number out of range.

use super::entry;
use super::kind::Kind;
use super::layout::HISTORY;
use crate::rejection::Rejection;

pub fn check(kind: Kind, [shard, index, c, d]: [u64; 4], shards: usize) -> Result<(), Rejection> {
    let is_host = |number| number < 16;
    let rest = match kind {
        Kind::Add => entry::is_proper(c, shards) && d == 0,
        Kind::Adopt | Kind::Wedge => is_host(c) && d == 0,
        Kind::Learn => is_host(c) && d <= HISTORY as u64,
        Kind::Install => is_host(c) && d < HISTORY as u64,
        Kind::Inherit | Kind::CatchUp => is_host(c) && is_host(d),
    };
    match shard < shards as u64 && (1..=8).contains(&index) && rest {
        true => Ok(()),
        false => Err(Rejection::Range),
    }
}
