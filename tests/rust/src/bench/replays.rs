//! Replays of logs.

use std::hint::black_box;

use super::clock::{Case, measure};
use super::states::{after_setup, pairs, plan};
use super::table::{SIDES, Table, ns, sides};
use crate::interface::Interface;
use crate::plain;
use crate::tally::TALLY_WORDS;
use crate::testing::logs::{is_writable, push_step};
use crate::testing::random::Random;
use crate::testing::steps::any_step;
use crate::testing::temper::Temper;
use crate::view::View;

/// Replays of fresh logs on a state after setup.
pub struct Replays {
    random: Random,
    /// What logs are made for.
    source: Vec<u64>,
    before: Vec<u64>,
    words: Vec<u64>,
    temper: &'static Temper,
    /// Whether steps that are rejected are left out of logs.
    accepted_only: bool,
    pub steps: usize,
    pub log: Log,
}

/// The bytes of steps, how many are rejected, and how many are catch-ups that are accepted.
#[derive(Default)]
pub struct Log {
    bytes: Vec<u8>,
    pub rejected: u64,
    caught_up: u64,
}

/// Steps of all kinds but catch-ups.
pub const MIXED: Temper = Temper {
    kinds: [40, 20, 20, 2, 8, 10, 0],
    arbitrary: 2,
    disturbed: 3,
    issues: 20,
    rivals: 10,
    replays: 0,
};

/// Adds, adopts and learns; whatever the state has become, some adopt is accepted.
const GROWING: Temper =
    Temper { kinds: [40, 30, 30, 0, 0, 0, 0], arbitrary: 0, disturbed: 0, ..MIXED };

/// Steps of all kinds, with configurations that follow each other quickly.
const CHANGING: Temper = Temper { kinds: [10, 25, 25, 2, 20, 10, 10], issues: 80, ..MIXED };

impl Case for Replays {
    fn refresh(&mut self) {
        let mut words = self.source.clone();
        let mut state = plain::State::check(&mut words).expect("a state after setup");
        self.log = self.fresh_log(&mut state);
    }

    fn restore(&mut self) {
        self.words.copy_from_slice(&self.before);
    }

    fn run<I: Interface>(&mut self) -> u64 {
        let mut report = [0; 4];
        let words = black_box(&mut self.words[..]);
        let answer = I::replay(words, black_box(&self.log.bytes), u64::MAX, &mut report);
        answer + report.iter().sum::<u64>()
    }

    fn units(&self) -> usize {
        1
    }
}

impl Replays {
    /// The same replay with a tally.
    pub fn run_tally<I: Interface>(&mut self) -> u64 {
        let (mut report, mut tally) = ([0; 4], [0; TALLY_WORDS]);
        let (words, log) = (black_box(&mut self.words[..]), black_box(&self.log.bytes[..]));
        let answer = I::replay_tally(words, log, u64::MAX, &mut report, &mut tally);
        let counts = (1..).zip(tally).map(|(number, count)| number * count);
        answer + report.iter().sum::<u64>() + counts.sum::<u64>()
    }

    fn new(shards: u64, steps: usize) -> Replays {
        let before = after_setup(plan(shards));
        Replays::with(before.clone(), before, steps)
    }

    /// Logs of adds, adopts and learns that are all accepted.
    pub fn accepted(shards: u64, steps: usize) -> Replays {
        Replays { accepted_only: true, ..Replays::of_temper(&GROWING, shards, steps) }
    }

    /// Logs that the temper inclines to.
    pub fn of_temper(temper: &'static Temper, shards: u64, steps: usize) -> Replays {
        Replays { temper, ..Replays::new(shards, steps) }
    }

    /// Logs made for two shards, on a state of more.
    fn of_two(shards: u64, steps: usize) -> Replays {
        Replays::with(after_setup(pairs(2)), after_setup(pairs(shards)), steps)
    }

    fn with(source: Vec<u64>, before: Vec<u64>, steps: usize) -> Replays {
        Replays {
            random: Random::new(5),
            source,
            words: before.clone(),
            before,
            temper: &MIXED,
            accepted_only: false,
            steps,
            log: Log::default(),
        }
    }

    /// So many steps.
    fn fresh_log(&mut self, state: &mut plain::State) -> Log {
        let (mut log, mut written) = (Log::default(), 0);
        while written < self.steps {
            let step = any_step(&mut self.random, View::new(state.words()), self.temper);
            if !is_writable(step) {
                continue;
            }
            let accepted = state.step(step).is_ok();
            if accepted || !self.accepted_only {
                log.rejected += u64::from(!accepted);
                log.caught_up += u64::from(accepted && step.is_catch_up());
                push_step(&mut log.bytes, step);
                written += 1;
            }
        }
        log
    }
}

/// The cells of a row.
fn cells(replays: &mut Replays) -> Vec<String> {
    let times = measure(replays);
    let log = [
        View::new(&replays.words).shards().to_string(),
        replays.steps.to_string(),
        replays.log.rejected.to_string(),
    ];
    let each = ns(times[0] / replays.steps.max(1) as f64);
    [&log[..], &sides(times), &[each]].concat()
}

/// The columns of a row of replays.
fn columns() -> Vec<&'static str> {
    [&["Z", "steps", "rejected (last)"], &SIDES[..], &["proved a step"]].concat()
}

pub fn tables() -> Vec<Table> {
    let mut lengths = Table::new(
        "## Replays by length\n\nA fresh mixed log each round, on a state after setup, in ns for the whole replay \
         (check and steps) and a step.",
        &columns(),
    );
    for steps in [0, 1, 10, 100, 1_000, 10_000] {
        lengths.row(&cells(&mut Replays::new(2, steps)));
    }
    let mut shards =
        Table::new("## Replays by number of shards\n\nThe same with 1,000 steps.", &columns());
    for count in 2..=8 {
        shards.row(&cells(&mut Replays::new(count, 1_000)));
    }
    vec![lengths, shards, changing(), same_logs()]
}

fn changing() -> Table {
    let mut table = Table::new(
        "## Replays with catch-ups\n\nLogs in which configurations follow each other quickly, and replicas catch up as often as \
         they inherit; those above have next to no catch-ups.",
        &[&columns()[..], &["caught up (last)"]].concat(),
    );
    for (shards, steps) in [(2, 100), (2, 1_000), (8, 1_000), (8, 10_000)] {
        let mut replays = Replays::of_temper(&CHANGING, shards, steps);
        let cells = cells(&mut replays);
        table.row(&[cells, vec![replays.log.caught_up.to_string()]].concat());
    }
    table
}

/// Logs that two shards alone make, on states of several numbers of shards. The check is taken off, as a replay of no steps.
fn same_logs() -> Table {
    let mut table = Table::new(
        "## The same logs by number of shards\n\n1,000 mixed steps made for two shards, fresh each round, replayed on states \
         whose first two shards are those; ns a step, without the check.",
        &[&["Z"], &SIDES[..]].concat(),
    );
    for shards in [2, 4, 6, 8] {
        let mut steps = [0, 1_000].map(|steps| measure(&mut Replays::of_two(shards, steps)));
        let [none, all] = &mut steps;
        let each = [0, 1, 2].map(|side| (all[side] - none[side]) / 1_000.0);
        table.row(&[&[shards.to_string()][..], &sides(each)].concat());
    }
    table
}
