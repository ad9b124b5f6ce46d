//! Drives a state through random calls of all implementations.

use super::any_log::any_log;
use super::asides;
use super::coverage::Coverage;
use super::logs;
use super::plans::plan;
use super::random::Random;
use super::seats::assert_trace;
use super::sides;
use super::singly::singly;
use super::steps::any_step;
use super::temper::Temper;
use super::tried::{Tried, caps};
use super::triplet::Triplet;
use crate::claims::Claims;
use crate::proved::TRACE_HOSTS;
use crate::seat::Seat;
use crate::step::Step;
use crate::view::{HISTORY, Replica, SHARD_WORDS, View};

pub struct Driver<'a> {
    pub random: &'a mut Random,
    coverage: &'a mut Coverage,
    temper: Temper,
    state: Triplet<u64>,
    /// Only runs from setup have claims.
    claims: Option<Claims>,
    /// The longest list that a host of each shard has shown.
    shown: Vec<Vec<u64>>,
}

impl<'a> Driver<'a> {
    /// A run: one accepted setup, over words that hold anything.
    pub fn from_setup(random: &'a mut Random, coverage: &'a mut Coverage) -> Driver<'a> {
        let shards = shards(random);
        let plan = plan(random, shards);
        let mut state = Triplet::filled(shards as usize * SHARD_WORDS, random.word());
        let answer = sides::setup(&mut state, &plan);
        assert_eq!(answer, 0, "setup of {plan:?}");
        coverage.answer(answer);
        let claims = Claims::after_setup(state.get()).expect("the claims after setup");
        let shown = vec![Vec::new(); shards as usize];
        Driver { temper: Temper::any(random), random, coverage, state, claims: Some(claims), shown }
    }

    /// Calls on borrowed words that need not come from any setup.
    pub fn from_words(
        random: &'a mut Random,
        coverage: &'a mut Coverage,
        words: &[u64],
    ) -> Driver<'a> {
        Driver {
            temper: Temper::any(random),
            random,
            coverage,
            state: Triplet::new(words),
            claims: None,
            shown: Vec::new(),
        }
    }

    /// Makes calls until about so many steps more were tried.
    pub fn go(&mut self, steps: u64) {
        let end = self.coverage.steps + steps;
        while self.coverage.steps < end {
            match self.random.below(200) {
                0 => asides::any(self.random, self.coverage, &mut self.state),
                1..=4 => self.look(),
                _ if self.random.chance(self.temper.replays) => self.replay(),
                _ => self.step(),
            }
        }
        self.look();
    }

    fn step(&mut self) {
        let step = any_step(self.random, View::new(self.state.get()), &self.temper);
        let capped = caps(View::new(self.state.get()), step);
        let answer = sides::step(&mut self.state, step);
        let tried = Tried { step, answer, capped };
        note(self.coverage, &mut self.claims, tried, self.state.get());
    }

    /// A log run, and the same steps called singly.
    fn replay(&mut self) {
        let log = self.log();
        let budget = match self.random.below(5) {
            0 => self.random.below(40),
            _ => u64::MAX,
        };
        let mut words = self.state.get().to_vec();
        let (coverage, claims) = (&mut *self.coverage, &mut self.claims);
        let expected = singly(&mut words, &log, budget, |tried, words| {
            note(coverage, claims, tried, words);
        });
        let replayed = sides::replay(&mut self.state, &log, budget);
        assert_eq!(replayed, expected, "report against single steps");
        assert!(self.state.get() == words, "state against single steps");
        self.coverage.answer(replayed.answer);
        self.coverage.stops[replayed.report.expect("a report")[0] as usize] += 1;
    }

    /// A log for the state; some are spoiled.
    fn log(&mut self) -> Vec<u8> {
        let length = match self.random.below(20) {
            0 => self.random.below(300),
            _ => self.random.below(30),
        };
        let mut log = any_log(self.random, self.state.get(), &self.temper, length);
        if self.random.chance(25) {
            logs::spoil(self.random, &mut log);
        }
        log
    }

    /// Looks at a shard's stable history, at what one of its hosts shows, and where that got its history.
    fn look(&mut self) {
        let view = View::new(self.state.get());
        let shard = self.random.below(view.shards());
        let replicas: Vec<Replica> = view.all_replicas(shard).collect();
        let replica = self.random.pick(&replicas);
        let seat = Seat { shard, index: replica.index, host: replica.host };
        let stable = replica.stable().to_vec();
        self.look_at_shard(shard);
        self.look_at_replica(seat, &stable);
        self.look_at_trace(seat);
    }

    /// In a run a shard's stable history is that of the reference shard.
    fn look_at_shard(&mut self, shard: u64) {
        let mut out = Triplet::filled(HISTORY, u64::MAX);
        let length = sides::stable_history(&mut self.state, shard, &mut out, 1).expect("a history");
        if let Some(claims) = &self.claims {
            assert_eq!(&out.get()[..length], claims.reference(shard), "shard {shard}");
        }
    }

    /// In a run what a host shows begins what the reference shard holds, and begins or goes on from whatever hosts of
    /// its shard showed before.
    fn look_at_replica(&mut self, seat: Seat, stable: &[u64]) {
        let mut out = Triplet::filled(HISTORY, u64::MAX);
        let length = sides::stable_prefix(&mut self.state, seat, &mut out, 1).expect("a replica");
        let shown = &out.get()[..length];
        assert_eq!(shown, stable, "{seat:?}");
        if let Some(claims) = &self.claims {
            assert!(claims.reference(seat.shard).starts_with(shown), "{seat:?}");
            let before = &mut self.shown[seat.shard as usize];
            assert!(before.starts_with(shown) || shown.starts_with(before), "{seat:?}");
            if before.len() < length {
                *before = shown.to_vec();
            }
        }
    }

    /// In a run a replica's trace is what the inherits and catch-ups of the run say.
    fn look_at_trace(&mut self, seat: Seat) {
        let mut out = Triplet::filled(TRACE_HOSTS, u64::MAX);
        let length = sides::trace(&mut self.state, seat, &mut out, 1).expect("a replica");
        let hosts = &out.get()[..length];
        assert_trace(View::new(self.state.get()), seat, hosts);
        if let Some(claims) = &self.claims {
            assert_eq!(hosts, claims.trace(seat), "{seat:?}");
        }
    }
}

/// Two shards most often, since states of many shards take longer.
fn shards(random: &mut Random) -> u64 {
    2 + random.weighted(&[40, 25, 12, 8, 5, 5, 5]) as u64
}

fn note(coverage: &mut Coverage, claims: &mut Option<Claims>, tried: Tried, words: &[u64]) {
    let Tried { step, answer, capped } = tried;
    coverage.step(step, answer, words);
    coverage.capped += u64::from(capped && answer == 0);
    if let Some(claims) = claims {
        let kept = claims.after_step(step, answer, words);
        assert_eq!(kept, Ok(()), "a claim after {step:?} with answer {answer}");
        coverage.catch_ups.again += u64::from(caught_up_again(claims, step, answer));
    }
}

/// Whether a step is a catch-up whose peer had caught up itself.
fn caught_up_again(claims: &Claims, step: Step, answer: u64) -> bool {
    let [shard, index, _, host] = step.numbers;
    step.is_catch_up() && answer == 0 && claims.catch_ups(Seat { shard, index, host }) > 0
}
