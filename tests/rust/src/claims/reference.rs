//! The reference shard: a shard without replicas (document 01: the lone box).

use super::violation::Violation;

/// Keeps a history and the entries offered. It is told accepted adds, and sees no replica.
#[derive(Default)]
pub struct Reference {
    history: Vec<u64>,
    offered: Vec<u64>,
}

impl Reference {
    pub fn history(&self) -> &[u64] {
        &self.history
    }

    pub fn offer(&mut self, entry: u64) {
        if !self.offered.contains(&entry) {
            self.offered.push(entry);
        }
    }

    /// Accepts entries one at a time until its history is this one.
    pub fn follow(&mut self, stable: &[u64]) -> Result<(), Violation> {
        let new = stable.strip_prefix(self.history.as_slice());
        new.ok_or(Violation::Disagrees)?.iter().try_for_each(|&entry| self.accept(entry))
    }

    fn accept(&mut self, entry: u64) -> Result<(), Violation> {
        if !self.offered.contains(&entry) {
            return Err(Violation::NotOffered);
        }
        if self.history.contains(&entry) {
            return Err(Violation::Twice);
        }
        self.history.push(entry);
        Ok(())
    }
}
