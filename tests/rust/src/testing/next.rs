//! The next configuration of a shard, written by hand.

use crate::view::{PENDING, SHARD_WORDS};

/// Writes what an accepted install writes: an issue's members and orderer, one more that is installed, and its replicas
/// as pending.
pub fn write_next(words: &mut [u64], shard: u64, issue: u64) {
    let block = &mut words[shard as usize * SHARD_WORDS..][..SHARD_WORDS];
    let (installed, members) = (block[1] as usize, issue & 0xffff);
    block[1] += 1;
    block[2 + installed] = members;
    block[10 + installed] = issue >> 16 & 0xf;
    for number in 0..members.count_ones() as usize {
        block[64 + 256 * installed + 64 * number] = PENDING;
    }
}
