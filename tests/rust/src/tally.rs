//! The rejections of a run, told by host.

/// Hosts are 0 to 15.
const HOSTS: usize = 16;

/// The words of a tally: the counts of the hosts, and then that of steps that name none.
pub const TALLY_WORDS: usize = HOSTS + 1;

/// How many steps of a run were rejected, for each host that they name, and of those that name none.
#[derive(Clone, Copy, Debug, Default, PartialEq, Eq)]
pub struct Tally {
    hosts: [u64; HOSTS],
    none: u64,
}

impl Tally {
    pub fn from_words([hosts @ .., none]: [u64; TALLY_WORDS]) -> Tally {
        Tally { hosts, none }
    }

    pub fn words(&self) -> [u64; TALLY_WORDS] {
        let mut words = [self.none; TALLY_WORDS];
        words[..HOSTS].copy_from_slice(&self.hosts);
        words
    }

    /// The rejected steps that name this host; no step names one above 15.
    pub fn of(&self, host: u64) -> u64 {
        self.hosts.get(host as usize).copied().unwrap_or(0)
    }

    /// The rejected steps that name no host.
    pub fn unnamed(&self) -> u64 {
        self.none
    }

    /// All rejected steps.
    pub fn total(&self) -> u64 {
        self.hosts.iter().sum::<u64>() + self.none
    }

    /// Counts a rejected step that names this host. One above 15 is no host's number.
    pub fn count(&mut self, host: Option<u64>) {
        match host.and_then(|host| self.hosts.get_mut(host as usize)) {
            Some(count) => *count += 1,
            None => self.none += 1,
        }
    }
}
