//! Member sets with their orderers.

use super::layout::{
    IMMUTABLE, INSTALLED, MEMBERS, MODE, ORDERERS, REPLICAS, Replica, Shard, replicas,
};

/// The hosts of one configuration, and which of them orders.
#[derive(Clone, Copy)]
pub struct Configuration {
    pub members: u64,
    pub orderer: u64,
}

impl Configuration {
    /// One to four hosts of 0 to 15, the orderer among them. The words may hold anything.
    pub fn is_proper(self) -> bool {
        self.members < 1 << 16
            && self.orderer < 16
            && self.members >> self.orderer & 1 == 1
            && self.size() <= REPLICAS
    }

    /// How many members there are.
    pub fn size(self) -> usize {
        self.members.count_ones() as usize
    }

    /// The number of a host's replica, if the host (0 to 15) is a member.
    pub fn replica(self, host: u64) -> Option<usize> {
        let bit = 1 << host;
        (self.members & bit != 0).then(|| (self.members & (bit - 1)).count_ones() as usize)
    }

    /// The number of the orderer's replica.
    pub fn orderer_replica(self) -> usize {
        (self.members & ((1 << self.orderer) - 1)).count_ones() as usize
    }

    /// The words of configuration `j`, counted from 0, installed or not.
    pub fn of_head(shard: &Shard, j: usize) -> Configuration {
        Configuration { members: shard[MEMBERS + j], orderer: shard[ORDERERS + j] }
    }
}

/// The replica of a host (0 to 15) in configuration `j`, counted from 0, which is proper, if the host is a member.
pub fn replica_in(shard: &Shard, j: usize, host: u64) -> Option<&Replica> {
    let at = Configuration::of_head(shard, j).replica(host)?;
    Some(&replicas(shard)[j * REPLICAS + at])
}

/// The configuration of an index (1 to 8) and the number of its first replica, if it is installed.
pub fn installed(shard: &Shard, index: u64) -> Option<(Configuration, usize)> {
    let j = index as usize - 1;
    (index <= shard[INSTALLED]).then(|| (Configuration::of_head(shard, j), j * REPLICAS))
}

/// Whether a replica of the newest configuration is immutable. Those of no member are not: their words are 0.
pub fn is_wedged(shard: &Shard) -> bool {
    let j = shard[INSTALLED] as usize - 1;
    replicas(shard)[j * REPLICAS..][..REPLICAS].iter().any(|replica| replica[MODE] == IMMUTABLE)
}
