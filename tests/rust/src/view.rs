//! A well-formed state as it is read off its words. Shards count from 0, indices from 1, as in document 01.

pub const SHARD_WORDS: usize = 2112;
const HEAD_WORDS: usize = 64;
const CONFIGURATION_WORDS: usize = 256;
const REPLICA_WORDS: usize = 64;
pub const HISTORY: usize = 56;
pub const PENDING: u64 = 1;
pub const ACTIVE: u64 = 2;
pub const IMMUTABLE: u64 = 3;

/// Reads words that hold a well-formed state.
#[derive(Clone, Copy)]
pub struct View<'a> {
    words: &'a [u64],
}

/// One replica, and which it is.
#[derive(Clone, Copy)]
pub struct Replica<'a> {
    pub index: u64,
    pub host: u64,
    words: &'a [u64],
}

impl<'a> View<'a> {
    pub fn new(words: &'a [u64]) -> View<'a> {
        View { words }
    }

    /// All words.
    pub fn words(self) -> &'a [u64] {
        self.words
    }

    pub fn shards(self) -> u64 {
        (self.words.len() / SHARD_WORDS) as u64
    }

    /// The words of one shard.
    pub fn block(self, shard: u64) -> &'a [u64] {
        &self.words[shard as usize * SHARD_WORDS..][..SHARD_WORDS]
    }

    pub fn sequencer(self, shard: u64) -> u64 {
        self.block(shard)[0]
    }

    /// The shard whose configurations this shard issues.
    pub fn sequenced(self, shard: u64) -> u64 {
        (0..self.shards())
            .find(|&other| self.sequencer(other) == shard)
            .expect("every shard is a sequencer")
    }

    pub fn installed(self, shard: u64) -> u64 {
        self.block(shard)[1]
    }

    pub fn members(self, shard: u64, index: u64) -> u64 {
        self.block(shard)[1 + index as usize]
    }

    pub fn orderer(self, shard: u64, index: u64) -> u64 {
        self.block(shard)[9 + index as usize]
    }

    /// The hosts of an installed configuration, lowest first.
    pub fn hosts(self, shard: u64, index: u64) -> impl Iterator<Item = u64> {
        let members = self.members(shard, index);
        (0..16).filter(move |host| members >> host & 1 == 1)
    }

    /// The replicas of an installed configuration.
    pub fn replicas(self, shard: u64, index: u64) -> impl Iterator<Item = Replica<'a>> {
        let block = &self.block(shard)[first_replica(index)..][..CONFIGURATION_WORDS];
        let parts = block.chunks_exact(REPLICA_WORDS);
        self.hosts(shard, index).zip(parts).map(move |(host, words)| Replica { index, host, words })
    }

    /// Where the words of a member's replica begin.
    pub fn place(self, shard: u64, index: u64, host: u64) -> usize {
        let number = self.hosts(shard, index).take_while(|&other| other != host).count();
        shard as usize * SHARD_WORDS + first_replica(index) + number * REPLICA_WORDS
    }

    /// The replicas of all installed configurations of a shard.
    pub fn all_replicas(self, shard: u64) -> impl Iterator<Item = Replica<'a>> {
        (1..=self.installed(shard)).flat_map(move |index| self.replicas(shard, index))
    }

    /// The longest stable prefix of a shard; the first of equally long ones.
    pub fn longest_stable(self, shard: u64) -> &'a [u64] {
        let mut longest: &[u64] = &[];
        for replica in self.all_replicas(shard) {
            if replica.stable().len() > longest.len() {
                longest = replica.stable();
            }
        }
        longest
    }

    /// Whether a replica of an installed configuration is immutable.
    pub fn is_wedged(self, shard: u64, index: u64) -> bool {
        self.replicas(shard, index).any(|replica| replica.mode() == IMMUTABLE)
    }

    /// Whether a replica of the newest configuration is immutable.
    pub fn is_newest_wedged(self, shard: u64) -> bool {
        self.is_wedged(shard, self.installed(shard))
    }

    pub fn replica(self, shard: u64, index: u64, host: u64) -> Option<Replica<'a>> {
        if !(1..=self.installed(shard)).contains(&index) {
            return None;
        }
        self.replicas(shard, index).find(|replica| replica.host == host)
    }
}

impl<'a> Replica<'a> {
    pub fn mode(self) -> u64 {
        self.words[0]
    }

    pub fn history(self) -> &'a [u64] {
        &self.words[8..][..self.words[1] as usize]
    }

    pub fn stable(self) -> &'a [u64] {
        &self.words[8..][..self.words[2] as usize]
    }

    /// The source host + 1, or 0.
    pub fn origin(self) -> u64 {
        self.words[3]
    }

    /// All 64 words.
    pub fn words(self) -> &'a [u64] {
        self.words
    }
}

/// Where the replicas of an index begin in their shard.
fn first_replica(index: u64) -> usize {
    HEAD_WORDS + (index as usize - 1) * CONFIGURATION_WORDS
}

/// The word of an issue.
pub const fn issue(index: u64, shard: u64, orderer: u64, members: u64) -> u64 {
    (1 << 32) + (index << 24) + (shard << 20) + (orderer << 16) + members
}

/// The shard and index that a proper entry is an issue for, if it is one.
pub fn issued_for(entry: u64) -> Option<(u64, u64)> {
    (entry >= 1 << 32).then_some((entry >> 20 & 0xf, entry >> 24 & 0xff))
}

/// Whether a proper entry is an issue for a shard and index.
pub fn is_issue_for(entry: u64, shard: u64, index: u64) -> bool {
    entry >> 20 == (1 << 12) + (index << 4) + shard
}
