//! The text for spreadsheets.

use super::state::check;
use super::text::Writer;
use crate::plain::csv::{measure, tell};
use crate::rejection::Rejection;

/// The header, and the longest row a shard and entry: no text of so many shards is longer.
const HEADER: usize = 23;
const SHARD: usize = 1_278;

/// Writes the rows of every shard's stable history, after a header; gives the text's length. It is measured first only
/// where it might not fit.
pub fn csv(words: &[u64], out: &mut [u8]) -> Result<usize, Rejection> {
    let shards = check(words)?;
    if out.len() < HEADER + SHARD * shards.len() {
        measure(shards, out.len())?;
    }
    let mut writer = Writer::new(out);
    tell(shards, &mut writer);
    Ok(writer.length())
}
