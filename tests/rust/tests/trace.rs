//! Where a replica got its history: traces of every seat, in runs and on other states, and outputs that are too short.

use penkwadar_tests::claims::Claims;
use penkwadar_tests::plain;
use penkwadar_tests::proved::TRACE_HOSTS;
use penkwadar_tests::seat::Seat;
use penkwadar_tests::step::Step;
use penkwadar_tests::testing::plans::plan;
use penkwadar_tests::testing::random::Random;
use penkwadar_tests::testing::seats::{all_seats, any_seat, assert_trace, rejection};
use penkwadar_tests::testing::settings;
use penkwadar_tests::testing::sides;
use penkwadar_tests::testing::states::{spoil_state, well_formed};
use penkwadar_tests::testing::steps::any_step;
use penkwadar_tests::testing::temper::Temper;
use penkwadar_tests::testing::triplet::Triplet;
use penkwadar_tests::view::{PENDING, Replica, SHARD_WORDS, View};

/// What an output holds before a call.
const UNWRITTEN: u64 = 0xeeee_eeee;

/// How many traces were met: by their length, of pending replicas, and of such that just caught up; and rejections.
#[derive(Debug, Default)]
struct Met {
    lengths: [u64; 8],
    pending: u64,
    caught_up: u64,
    answers: [u64; 12],
}

impl Met {
    /// Traces a seat of a well-formed state. Gives its hosts, where it has a replica.
    fn trace(&mut self, state: &mut Triplet<u64>, seat: Seat) -> Option<Vec<u64>> {
        let mut out = Triplet::filled(TRACE_HOSTS + 2, UNWRITTEN);
        let traced = sides::trace(state, seat, &mut out, 1);
        let view = View::new(state.get());
        assert_eq!(traced.err().unwrap_or(0), rejection(view, seat), "{seat:?}");
        self.answers[traced.err().unwrap_or(0) as usize] += 1;
        let (hosts, rest) = out.get().split_at(traced.ok()?);
        assert!(rest.iter().all(|&word| word == UNWRITTEN), "written past the trace of {seat:?}");
        assert_trace(view, seat, hosts);
        let replica = view.replica(seat.shard, seat.index, seat.host)?;
        match replica.mode() {
            PENDING => self.pending += 1,
            _ => self.lengths[hosts.len()] += 1,
        }
        Some(hosts.to_vec())
    }

    /// A replica that just caught up has the trace of its peer.
    fn compare(&mut self, state: &mut Triplet<u64>, catch_up: Step) {
        let [shard, index, host, peer] = catch_up.numbers;
        let [heir, peer] = [host, peer].map(|host| Seat { shard, index, host });
        assert_eq!(self.trace(state, heir), self.trace(state, peer), "{catch_up:?}");
        self.caught_up += 1;
    }

    fn assert_complete(&self) {
        assert!(self.lengths.iter().all(|&count| count > 20) && self.pending > 20, "{self:?}");
        assert!([0, 7, 10, 11].iter().all(|&answer| self.answers[answer] > 100), "{self:?}");
    }
}

/// In a run every trace is what the inherits and catch-ups of the run say.
#[test]
fn runs_from_setup() {
    let mut met = Met::default();
    for run in 0..120 {
        one_run(&mut Random::of_run(settings::seed(), run), &mut met);
    }
    println!("{met:?}");
    met.assert_complete();
    assert!(met.caught_up > 100, "{met:?}");
}

fn one_run(random: &mut Random, met: &mut Met) {
    let shards = random.within(2..=3);
    let mut state = Triplet::filled(shards as usize * SHARD_WORDS, random.word());
    assert_eq!(sides::setup(&mut state, &plan(random, shards)), 0);
    let mut claims = Claims::after_setup(state.get()).expect("the claims after setup");
    let temper = Temper::any(random);
    for moment in 1..=1_000 {
        let step = any_step(random, View::new(state.get()), &temper);
        let answer = sides::step(&mut state, step);
        assert_eq!(claims.after_step(step, answer, state.get()), Ok(()));
        if step.is_catch_up() && answer == 0 {
            met.compare(&mut state, step);
        }
        if moment % 100 == 0 {
            for seat in all_seats(random.below(shards)) {
                if let Some(hosts) = met.trace(&mut state, seat) {
                    assert_eq!(hosts, claims.trace(seat), "{seat:?}");
                }
            }
        }
    }
}

/// Every seat of every shard, and of one that is not there.
#[test]
fn borrowed_states() {
    let mut random = Random::new(settings::seed() + 1);
    let mut met = Met::default();
    for run in 0..70 {
        let shards = 2 + run % 7;
        let mut state = Triplet::new(&well_formed(&mut random, shards));
        for seat in (0..=shards).flat_map(all_seats) {
            met.trace(&mut state, seat);
        }
    }
    println!("{met:?}");
    met.assert_complete();
}

/// Every pending replica catches up from every peer that is not pending, whatever the peer's origin is.
#[test]
fn every_catch_up() {
    let mut random = Random::new(settings::seed() + 5);
    let mut met = Met::default();
    for run in 0..560 {
        let words = well_formed(&mut random, 2 + run % 7);
        for step in catch_ups(View::new(&words), run % 2) {
            let mut state = Triplet::new(&words);
            assert_eq!(sides::step(&mut state, step), 0, "{step:?}");
            met.compare(&mut state, step);
        }
    }
    println!("{met:?}");
    assert!(met.lengths[1..].iter().all(|&count| count > 20), "{met:?}");
}

/// All catch-ups that a shard of a well-formed state accepts.
fn catch_ups(view: View, shard: u64) -> Vec<Step> {
    let replicas: Vec<Replica> = view.all_replicas(shard).collect();
    let (heirs, peers): (Vec<Replica>, Vec<Replica>) =
        replicas.into_iter().partition(|replica| replica.mode() == PENDING);
    let of = |heir: Replica| {
        let peers = peers.iter().filter(move |peer| peer.index == heir.index);
        peers.map(move |peer| Step::catch_up(shard, heir.index, heir.host, peer.host))
    };
    heirs.into_iter().flat_map(of).collect()
}

/// Outputs of any length, states out of form and of a wrong length.
#[test]
fn any_calls() {
    let mut random = Random::new(settings::seed() + 2);
    let mut answers = [0u64; 12];
    for run in 0..8_000 {
        let shards = 2 + run % 7;
        let mut words = well_formed(&mut random, shards);
        let seat = any_seat(&mut random, View::new(&words));
        let rejected = rejection(View::new(&words), seat);
        let (out_len, count_len) = (random.place(30), random.weighted(&[5, 90, 5]));
        let out_of_form = spoil_state(&mut random, &mut words);
        let answer = match () {
            _ if count_len == 0 || out_len < TRACE_HOSTS => 8,
            _ if !words.len().is_multiple_of(SHARD_WORDS) => 1,
            _ if rejected == 7 => 7,
            _ if out_of_form => 9,
            _ => rejected,
        };
        let mut out = Triplet::filled(out_len, random.word());
        let traced = sides::trace(&mut Triplet::new(&words), seat, &mut out, count_len);
        assert_eq!(traced.err().unwrap_or(0), answer, "{seat:?} of {shards}");
        answers[answer as usize] += 1;
        if let Ok(count) = traced {
            assert_trace(View::new(&words), seat, &out.get()[..count]);
        }
    }
    println!("answers: {answers:?}");
    assert!([0, 1, 7, 8, 9, 10, 11].iter().all(|&answer| answers[answer] > 100), "{answers:?}");
}

/// Seven words and a count are asked for before anything else, whatever the trace's length.
#[test]
fn short_outputs() {
    let mut random = Random::new(settings::seed() + 3);
    let good = well_formed(&mut random, 2);
    let mut out_of_form = good.clone();
    out_of_form[1] = 9;
    let orderer = View::new(&good).orderer(0, 1);
    let seat = Seat { shard: 0, index: 1, host: orderer };
    let calls = [
        (&good[..], seat, 0),
        (&good[1..], seat, 1),
        (&good, Seat { host: 16, ..seat }, 7),
        (&out_of_form, seat, 9),
    ];
    for (out_len, count_len) in (0..=9).flat_map(|out_len| (0..=2).map(move |n| (out_len, n))) {
        for (words, seat, answer) in calls {
            let mut out = Triplet::filled(out_len, UNWRITTEN);
            let traced = sides::trace(&mut Triplet::new(words), seat, &mut out, count_len);
            let answer = if out_len < 7 || count_len < 1 { 8 } else { answer };
            assert_eq!(traced.err().unwrap_or(0), answer, "{out_len} and {count_len} words");
            assert!(out.get().iter().all(|&word| word == UNWRITTEN), "index 1 has no trace");
        }
    }
}

/// What is asked first: outputs, length, range, form, index, member.
#[test]
fn order_of_rejections() {
    let mut words = vec![0; 2 * SHARD_WORDS];
    let plan = [1, 0b0011, 0, 0, 0b1100, 2];
    assert_eq!(plain::setup(&mut words, &plan), Ok(()));
    let zeros = vec![0; words.len()];
    let answer = |words: &[u64], [shard, index, host]: [u64; 3], out_len| {
        let mut out = Triplet::filled(out_len, UNWRITTEN);
        let seat = Seat { shard, index, host };
        sides::trace(&mut Triplet::new(words), seat, &mut out, 1).err().unwrap_or(0)
    };
    assert_eq!(answer(&zeros[1..], [2, 0, 16], 6), 8);
    assert_eq!(answer(&zeros[1..], [2, 0, 16], 7), 1);
    assert_eq!(answer(&zeros, [2, 2, 2], 7), 7);
    assert_eq!(answer(&zeros, [0, 0, 2], 7), 7);
    assert_eq!(answer(&zeros, [0, 9, 2], 7), 7);
    assert_eq!(answer(&zeros, [0, 2, 16], 7), 7);
    assert_eq!(answer(&zeros, [0, 2, 2], 7), 9);
    assert_eq!(answer(&words, [0, 2, 2], 7), 10);
    assert_eq!(answer(&words, [0, 1, 2], 7), 11);
    assert_eq!(answer(&words, [0, 1, 1], 7), 0);
    for huge in [1u64 << 32, 1 << 63, u64::MAX] {
        for seat in [[huge, 1, 1], [0, huge, 1], [0, 1, huge], [0, huge.wrapping_add(1), 1]] {
            assert_eq!(answer(&words, seat, 7), 7, "{seat:?}");
        }
    }
}

/// Lengths that are no state's, and words of a good state that are spoilt one by one.
#[test]
fn states_out_of_form() {
    let mut random = Random::new(settings::seed() + 4);
    let mut out = Triplet::filled(TRACE_HOSTS, UNWRITTEN);
    let seat = Seat { shard: 1, index: 1, host: 0 };
    for length in [0, 1, SHARD_WORDS, 2 * SHARD_WORDS - 1, 2 * SHARD_WORDS + 1, 9 * SHARD_WORDS] {
        let answer = sides::trace(&mut Triplet::new(&vec![0; length]), seat, &mut out, 1);
        assert_eq!(answer, Err(1), "{length} words");
    }
    let words = well_formed(&mut random, 2);
    for place in 0..words.len() {
        let mut state = Triplet::new(&words);
        state.edit(|words| words[place] = u64::MAX);
        assert_eq!(sides::trace(&mut state, seat, &mut out, 1), Err(9), "word {place}");
    }
}
