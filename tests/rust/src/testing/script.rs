//! Runs of the plain machine by hand, which the claims follow.

use super::wrong::Wrong;
use crate::claims::{Claims, Violation};
use crate::plain;
use crate::step::Step;
use crate::view::{SHARD_WORDS, issue};

/// Shard 0 has hosts 0 and 1, shard 1 has hosts 2 and 3; the lower host orders.
pub const PLAN: [u64; 6] = [1, 0b0011, 0, 0, 0b1100, 2];

/// Index 2 of shard 0 is installed, once it is issued.
pub const INSTALL: Step = Step::install(0, 1, 3, 0);

/// The state at the last moment of a run, and what was seen of it.
pub struct Script {
    pub words: Vec<u64>,
    pub claims: Claims,
}

impl Script {
    /// The moment after setup.
    pub fn begin() -> Script {
        let mut words = vec![0; 2 * SHARD_WORDS];
        plain::setup(&mut words, &PLAN).expect("a good plan");
        let claims = Claims::after_setup(&words).expect("the claims after setup");
        Script { words, claims }
    }

    /// Index 2 of shard 0 is issued, for `INSTALL`: these hosts, host 4 among them, which orders.
    pub fn issued(hosts: &[u64]) -> Script {
        let members = hosts.iter().map(|host| 1 << host).sum();
        let mut script = Script::begin();
        script.play(&[
            Step::add(1, 1, issue(2, 0, 4, members)),
            Step::adopt(1, 1, 3),
            Step::learn(1, 1, 3, 1),
        ]);
        script
    }

    /// After steps that wedge index 1 of shard 0 these hosts are installed. All are pending.
    pub fn installed(steps: &[Step], hosts: &[u64]) -> Script {
        let mut script = Script::issued(hosts);
        script.play(steps);
        script.play(&[INSTALL]);
        script
    }

    /// Accepted steps, which break no claim.
    pub fn play(&mut self, steps: &[Step]) {
        for &step in steps {
            assert_eq!(plain::step(&mut self.words, step), Ok(()), "{step:?}");
            assert_eq!(self.claims.after_step(step, 0, &self.words), Ok(()), "{step:?}");
        }
    }

    /// What the claims say to a step that ends in words that somebody changed.
    pub fn verdict(mut self, change: impl Fn(&mut [u64]), step: Step) -> Result<(), Violation> {
        change(&mut self.words);
        self.claims.after_step(step, 0, &self.words)
    }

    /// What the claims say to each step of a wrong machine, which accepts it.
    pub fn play_wrong(&mut self, wrong: Wrong, steps: &[(Step, Result<(), Violation>)]) {
        for &(step, verdict) in steps {
            assert_eq!(wrong.step(&mut self.words, step), 0, "{step:?}");
            assert_eq!(self.claims.after_step(step, 0, &self.words), verdict, "{step:?}");
        }
    }
}
