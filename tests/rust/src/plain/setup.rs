//! The first state, from a plan.

use super::configuration::Configuration;
use super::layout::*;
use super::wellformed::are_sequencers;
use crate::rejection::Rejection;

/// Writes every word of a state from three words a shard: sequencer, members, orderer.
pub fn setup(words: &mut [u64], plan: &[u64]) -> Result<(), Rejection> {
    let shards = shard_count(words.len()).ok_or(Rejection::StateLength)?;
    let (lines, rest) = plan.as_chunks::<3>();
    if lines.len() != shards || !rest.is_empty() || !is_plan(lines) {
        return Err(Rejection::Plan);
    }
    words.fill(0);
    write_all(words.as_chunks_mut().0, lines);
    Ok(())
}

/// Writes the first words of a plan's shards, all of which are 0.
pub(crate) fn write_all(shards: &mut [Shard], lines: &[[u64; 3]]) {
    for (shard, &line) in shards.iter_mut().zip(lines) {
        write(shard, line);
    }
}

fn is_plan(lines: &[[u64; 3]]) -> bool {
    are_sequencers(lines.iter().map(|line| line[0]), lines.len())
        && lines.iter().all(|&[_, members, orderer]| Configuration { members, orderer }.is_proper())
}

fn write(shard: &mut Shard, [sequencer, members, orderer]: [u64; 3]) {
    shard[SEQUENCER] = sequencer;
    shard[INSTALLED] = 1;
    shard[MEMBERS] = members;
    shard[ORDERERS] = orderer;
    let size = Configuration { members, orderer }.size();
    for replica in &mut replicas_mut(shard)[..size] {
        replica[MODE] = ACTIVE;
    }
}
