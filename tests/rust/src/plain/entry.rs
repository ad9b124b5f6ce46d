//! Entries: takes and issues.

use super::configuration::Configuration;

const ISSUE: u64 = 1 << 32;

/// The shard, index and configuration that an issue names.
pub struct Issue(u64);

impl Issue {
    /// The issue that a proper entry is, if it is none but a take otherwise.
    pub fn of(entry: u64) -> Option<Issue> {
        (entry >= ISSUE).then_some(Issue(entry))
    }

    pub fn index(&self) -> u64 {
        (self.0 - ISSUE) >> 24
    }

    pub fn shard(&self) -> u64 {
        self.0 >> 20 & 0xf
    }

    pub fn configuration(&self) -> Configuration {
        Configuration { members: self.0 & 0xffff, orderer: self.0 >> 16 & 0xf }
    }

    /// Whether a proper entry is an issue for the same shard and index.
    pub fn rivals(&self, entry: u64) -> bool {
        entry >> 20 == self.0 >> 20
    }
}

pub fn is_take(entry: u64) -> bool {
    (1..ISSUE).contains(&entry)
}

/// Whether a word is a proper entry where there are so many shards.
pub fn is_proper(entry: u64, shards: usize) -> bool {
    is_take(entry) || entry != 0 && is_proper_issue(Issue(entry), shards)
}

fn is_proper_issue(issue: Issue, shards: usize) -> bool {
    (2..=8).contains(&issue.index())
        && issue.shard() < shards as u64
        && issue.configuration().is_proper()
}
