//! The text for spreadsheets.

use super::entry::is_take;
use super::layout::{Shard, shard_count};
use super::stable::longest_stable;
use super::text::{Counter, Text, Writer};
use super::wellformed::are_well_formed;
use crate::rejection::Rejection;

/// Writes the rows of every shard's stable history, after a header; gives the text's length.
pub fn csv(words: &[u64], out: &mut [u8]) -> Result<usize, Rejection> {
    shard_count(words.len()).ok_or(Rejection::StateLength)?;
    let shards = words.as_chunks().0;
    if !are_well_formed(shards) {
        return Err(Rejection::NotWellFormed);
    }
    measure(shards, out.len())?;
    let mut writer = Writer::new(out);
    tell(shards, &mut writer);
    Ok(writer.length())
}

/// Whether the text fits into so many bytes: rejection 8.
pub(crate) fn measure(shards: &[Shard], room: usize) -> Result<(), Rejection> {
    let mut counter = Counter::default();
    tell(shards, &mut counter);
    match counter.0 <= room {
        true => Ok(()),
        false => Err(Rejection::OutputShort),
    }
}

pub(crate) fn tell(shards: &[Shard], text: &mut impl Text) {
    text.bytes(b"zone,place,kind,entry\r\n");
    for (number, shard) in (0..).zip(shards) {
        for (place, &entry) in (0..).zip(longest_stable(shard)) {
            text.number(number);
            text.bytes(b",");
            text.number(place);
            text.bytes(if is_take(entry) { b",take," } else { b",issue," });
            text.number(entry);
            text.bytes(b"\r\n");
        }
    }
}
