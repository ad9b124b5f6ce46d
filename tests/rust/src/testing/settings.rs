//! Settings from the environment, and a note of what was running when a test fails.

use std::{env, thread};

/// The seed: `PENKWADAR_SEED`, or one that never changes.
pub fn seed() -> u64 {
    number("PENKWADAR_SEED").unwrap_or(20_260_101)
}

/// How many steps the random runs try: `PENKWADAR_STEPS`, or a million.
pub fn steps() -> u64 {
    number("PENKWADAR_STEPS").unwrap_or(1_000_000)
}

/// The one run to repeat: `PENKWADAR_RUN`, if set.
pub fn only_run() -> Option<u64> {
    number("PENKWADAR_RUN")
}

fn number(name: &str) -> Option<u64> {
    let text = env::var(name).ok()?;
    Some(text.parse().unwrap_or_else(|_| panic!("{name} is no number: {text}")))
}

/// Tells on a failure how to repeat it.
pub struct Note {
    pub seed: u64,
    pub run: u64,
}

impl Drop for Note {
    fn drop(&mut self) {
        if thread::panicking() {
            let Note { seed, run } = self;
            eprintln!(
                "failed in run {run} of seed {seed}: PENKWADAR_SEED={seed} PENKWADAR_RUN={run} repeats it"
            );
        }
    }
}
