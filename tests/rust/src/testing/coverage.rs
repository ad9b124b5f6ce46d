//! What a test met, so that it can insist on having met everything.

use std::fmt;

use super::catch_ups::CatchUps;
use crate::step::Step;
use crate::view::{HISTORY, View};

/// The kinds of steps, and 0 for all that are no kind.
const KINDS: usize = 8;

/// The rejections that a kind of step can get on a state of the right length and form.
pub const REJECTIONS: [&[u64]; KINDS] = [
    &[3, 4],
    &[7, 10, 12, 15, 16, 17, 23],
    &[7, 10, 11, 12, 13, 14],
    &[7, 10, 11, 12, 18, 19],
    &[7, 10, 11, 12],
    &[7, 10, 11, 20, 21, 22, 24],
    &[7, 10, 11, 12, 13],
    &[7, 10, 11, 12, 13],
];

/// The rejection that no step of a run from setup gets.
pub const NEVER_FROM_SETUP: u64 = 22;

/// Answers are below this.
pub const ANSWERS: usize = 25;

#[derive(Default)]
pub struct Coverage {
    /// Steps tried, singly and in replays.
    pub steps: u64,
    /// Answers by kind.
    pub kinds: [[u64; ANSWERS]; KINDS],
    /// Answers of all calls.
    pub answers: [u64; ANSWERS],
    /// Replays by how they stopped: ended, spent, damaged.
    pub stops: [u64; 3],
    /// Steps by the number of shards.
    pub shards: [u64; 9],
    /// Accepted installs by their index.
    pub indices: [u64; 9],
    /// Adds that made a history full.
    pub full: u64,
    /// Adopts whose stable length was capped.
    pub capped: u64,
    /// Learns that were rejected although all histories were long enough.
    pub unlike: u64,
    pub catch_ups: CatchUps,
}

impl Coverage {
    /// Notes a tried step, its answer and the state that it left.
    pub fn step(&mut self, step: Step, answer: u64, after: &[u64]) {
        let kind = usize::try_from(step.kind).ok().filter(|&kind| kind < KINDS).unwrap_or(0);
        self.steps += 1;
        self.kinds[kind][answer as usize] += 1;
        self.answer(answer);
        let view = View::new(after);
        self.shards[(view.shards() as usize).min(8)] += 1;
        if step.is_catch_up() {
            self.catch_ups.note(step, answer, view);
        }
        match answer {
            0 => self.accepted(step, view),
            19 => self.unlike += u64::from(all_long_enough(view, step)),
            _ => (),
        }
    }

    /// Notes the answer of any other call.
    pub fn answer(&mut self, answer: u64) {
        self.answers[answer as usize] += 1;
    }

    fn accepted(&mut self, step: Step, after: View) {
        let [shard, index, ..] = step.numbers;
        match step.kind {
            1 => {
                let orderer = after.replica(shard, index, after.orderer(shard, index));
                let length = orderer.map_or(0, |replica| replica.history().len());
                self.full += u64::from(length == HISTORY);
            }
            5 => self.indices[after.installed(shard) as usize] += 1,
            _ => (),
        }
    }

    /// Insists that every kind was accepted and got each of its rejections but those left out, and no others.
    pub fn assert_kinds(&self, without: &[u64]) {
        for (kind, rejections) in REJECTIONS.iter().enumerate() {
            for (answer, &count) in (0..).zip(&self.kinds[kind]) {
                let known = rejections.contains(&answer) || answer == 0 && kind > 0;
                let can = known && !without.contains(&answer);
                assert!(count > 0 || !can, "kind {kind} never got {answer}\n{self}");
                assert!(count == 0 || can, "kind {kind} got {answer}\n{self}");
            }
        }
    }

    /// Insists that all rejections occurred but those left out, and these not.
    pub fn assert_answers(&self, without: &[u64]) {
        for (answer, &count) in (0..).zip(&self.answers) {
            let left_out = without.contains(&answer);
            assert!((count == 0) == left_out, "{count} calls got {answer}\n{self}");
        }
    }
}

/// Whether all histories that a learn compares have its length.
fn all_long_enough(view: View, step: Step) -> bool {
    let [shard, index, _, length] = step.numbers;
    let mut replicas = view.replicas(shard, index);
    replicas.all(|replica| replica.history().len() as u64 >= length)
}

impl fmt::Display for Coverage {
    fn fmt(&self, f: &mut fmt::Formatter<'_>) -> fmt::Result {
        const NAMES: [&str; KINDS] =
            ["no kind", "add", "adopt", "learn", "wedge", "install", "inherit", "catch up"];
        writeln!(f, "{} steps; by number of shards: {:?}", self.steps, &self.shards[2..])?;
        for (name, counts) in NAMES.iter().zip(&self.kinds) {
            writeln!(f, "  {name}: {}", Counts(counts))?;
        }
        writeln!(f, "  answers of all calls: {}", Counts(&self.answers))?;
        writeln!(f, "  replays ended, spent, damaged: {:?}", self.stops)?;
        writeln!(f, "  installs of index 2 to 8: {:?}", &self.indices[2..])?;
        writeln!(f, "  histories filled: {}", self.full)?;
        writeln!(f, "  adopts capped: {}, learns unlike: {}", self.capped, self.unlike)?;
        write!(f, "  {}", self.catch_ups)
    }
}

/// Answers that occurred, each with its count.
struct Counts<'a>(&'a [u64; ANSWERS]);

impl fmt::Display for Counts<'_> {
    fn fmt(&self, f: &mut fmt::Formatter<'_>) -> fmt::Result {
        let met = self.0.iter().enumerate().filter(|&(_, &count)| count > 0);
        let met: Vec<String> = met.map(|(answer, count)| format!("{answer}: {count}")).collect();
        f.write_str(&met.join(", "))
    }
}
