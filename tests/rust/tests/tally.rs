//! Rejections told by host: random logs and every host of every kind, against single steps; steps by hand; outputs that are
//! too short, states out of form, logs and budgets that try nothing.

use penkwadar_tests::step::Step;
use penkwadar_tests::tally::TALLY_WORDS;
use penkwadar_tests::testing::any_log::any_log;
use penkwadar_tests::testing::coverage::NEVER_FROM_SETUP;
use penkwadar_tests::testing::logs::{KINDS, push_step, spoil, used};
use penkwadar_tests::testing::plans::plan;
use penkwadar_tests::testing::random::Random;
use penkwadar_tests::testing::script::Script;
use penkwadar_tests::testing::settings;
use penkwadar_tests::testing::sides::{self, Replayed, Tallied};
use penkwadar_tests::testing::states::{spoil_state, well_formed};
use penkwadar_tests::testing::tallies::{Met, NONE};
use penkwadar_tests::testing::temper::Temper;
use penkwadar_tests::testing::triplet::Triplet;
use penkwadar_tests::view::{SHARD_WORDS, issue};

/// A tally of no rejections.
const ZEROS: [u64; TALLY_WORDS] = [0; TALLY_WORDS];

/// A replay whose outputs are too short.
const SHORT: Tallied = Tallied { replayed: Replayed { answer: 8, report: None }, tally: None };

/// Whether a report and a tally of so many words are too short.
fn are_short([report, tally]: [usize; 2]) -> bool {
    report < 4 || tally < 17
}

fn log_of(steps: &[Step]) -> Vec<u8> {
    let mut log = Vec::new();
    steps.iter().for_each(|&step| push_step(&mut log, step));
    log
}

/// A tally with these counts, each with its word.
fn tally_of(counts: &[(usize, u64)]) -> [u64; TALLY_WORDS] {
    let mut tally = ZEROS;
    counts.iter().for_each(|&(word, count)| tally[word] = count);
    tally
}

/// Replays of random logs one after the other, some of them spoiled, some with a low budget.
fn random_replays(random: &mut Random, met: &mut Met, state: &mut Triplet<u64>, count: u64) {
    let temper = Temper::any(random);
    for _ in 0..count {
        let steps = random.below(80);
        let mut log = any_log(random, state.get(), &temper, steps);
        if random.chance(40) {
            spoil(random, &mut log);
        }
        let budget = if random.chance(20) { random.below(40) } else { u64::MAX };
        met.replay(state, &log, budget);
    }
}

#[test]
fn runs_from_setup() {
    let mut met = Met::default();
    for run in 0..250 {
        let mut random = Random::of_run(settings::seed(), run);
        let shards = 2 + run % 7;
        let mut state = Triplet::filled(shards as usize * SHARD_WORDS, random.word());
        assert_eq!(sides::setup(&mut state, &plan(&mut random, shards)), 0);
        random_replays(&mut random, &mut met, &mut state, 20);
    }
    println!("{met}");
    met.assert_rejections(20, &[NEVER_FROM_SETUP]);
    met.assert_stops(100);
}

#[test]
fn borrowed_states() {
    let mut met = Met::default();
    for run in 0..1_500 {
        let mut random = Random::of_run(settings::seed() + 1, run);
        let mut state = Triplet::new(&well_formed(&mut random, 2 + run % 7));
        random_replays(&mut random, &mut met, &mut state, 3);
    }
    println!("{met}");
    met.assert_rejections(20, &[]);
    met.assert_stops(100);
}

/// Every kind with every host and some numbers above them, each other number in its range and out of it; few steps a log.
#[test]
fn every_host_of_every_kind() {
    let mut random = Random::new(settings::seed() + 2);
    let mut met = Met::default();
    for shards in 2..=8 {
        let words = well_formed(&mut random, shards);
        let mut steps = every_step(shards);
        random.shuffle(&mut steps);
        for steps in steps.chunks(20) {
            met.replay(&mut Triplet::new(&words), &log_of(steps), u64::MAX);
        }
    }
    println!("{met}");
    assert!(met.words.iter().all(|&count| count > 1_000), "{met}");
    for kind in KINDS.skip(1) {
        assert!(met.kinds[kind as usize][7].iter().all(|&count| count > 500), "{met}");
    }
}

fn every_step(shards: u64) -> Vec<Step> {
    let hosts = || (0..=16).chain([17, 31, 32, 1 << 16, 1 << 32, (1 << 35) - 1]);
    let mut steps = Vec::new();
    for kind in KINDS {
        let last: &[u64] = if used(kind) == 4 { &[0, 15, 16, 55, 56, 57] } else { &[0] };
        for (shard, index) in [0, shards - 1, shards].into_iter().flat_map(with_indices) {
            for (host, &d) in hosts().flat_map(|host| last.iter().map(move |d| (host, d))) {
                steps.push(Step::new(kind, [shard, index, host, d]));
            }
        }
    }
    steps
}

fn with_indices(shard: u64) -> impl Iterator<Item = (u64, u64)> {
    [0, 1, 2, 8, 9].into_iter().map(move |index| (shard, index))
}

/// Rejected steps after setup, one a log, and the word in which each counts.
#[test]
fn steps_by_hand() {
    let huge = (1 << 35) - 1;
    let cases = [
        // Add: the orderer, which is host 0 in shard 0 and host 2 in shard 1.
        (Step::add(1, 1, issue(2, 1, 3, 8)), 17, 2),
        (Step::add(0, 2, 7), 10, NONE),
        (Step::add(0, 9, 7), 7, NONE),
        (Step::add(2, 1, 7), 7, NONE),
        (Step::add(0, 1, 0), 7, NONE),
        // The named host, a member or not, with an index that is not there.
        (Step::adopt(0, 1, 0), 14, 0),
        (Step::adopt(0, 1, 15), 11, 15),
        (Step::learn(0, 1, 1, 0), 18, 1),
        (Step::wedge(1, 8, 9), 10, 9),
        (Step::install(0, 1, 3, 0), 20, 3),
        (Step::inherit(0, 1, 1, 4), 12, 1),
        (Step::catch_up(0, 2, 4, 5), 10, 4),
        // Another number out of range: the host is named all the same.
        (Step::adopt(2, 1, 3), 7, 3),
        (Step::learn(0, 1, 1, 57), 7, 1),
        (Step::wedge(0, 0, 4), 7, 4),
        (Step::install(0, 1, 2, 56), 7, 2),
        (Step::inherit(0, 1, 5, 16), 7, 5),
        (Step::catch_up(0, 1, 6, huge), 7, 6),
        // The host's number above 15.
        (Step::adopt(0, 1, 16), 7, NONE),
        (Step::learn(0, 1, 17, 1), 7, NONE),
        (Step::wedge(0, 1, huge), 7, NONE),
        (Step::install(0, 1, 16, 0), 7, NONE),
        (Step::inherit(0, 1, 1 << 32, 0), 7, NONE),
        (Step::catch_up(2, 9, 16, 16), 7, NONE),
    ];
    let words = Script::begin().words;
    for (step, answer, word) in cases {
        assert_eq!(sides::step(&mut Triplet::new(&words), step), answer, "{step:?}");
        let tallied = sides::replay_tally(&mut Triplet::new(&words), &log_of(&[step]), 1);
        assert_eq!(tallied.tally, Some(tally_of(&[(word, 1)])), "{step:?}");
    }
}

/// An add counts for the orderer of its own index: host 0 of index 1 is wedged, host 4 of index 2 is pending, and host 2 of
/// the other shard has the take.
#[test]
fn orderers_of_two_indices() {
    let steps = [Step::wedge(0, 1, 0), Step::add(1, 1, 5)];
    let mut state = Triplet::new(&Script::installed(&steps, &[4, 6]).words);
    let adds = [Step::add(0, 1, 7), Step::add(0, 2, 7), Step::add(0, 2, 8), Step::add(1, 1, 5)];
    let log = log_of(&adds);
    let tallied = sides::replay_tally(&mut state, &log, u64::MAX);
    let report = Some([0, 4, 4, log.len() as u64]);
    assert_eq!(tallied.replayed, Replayed { answer: 0, report });
    assert_eq!(tallied.tally, Some(tally_of(&[(0, 1), (4, 2), (2, 1)])));
}

/// More rejections than 16 bits can count, for one host and for none.
#[test]
fn many_rejections() {
    const TIMES: u64 = 70_000;
    let log = log_of(&[Step::wedge(0, 1, 5), Step::add(0, 8, 7)]).repeat(TIMES as usize);
    let mut state = Triplet::new(&Script::begin().words);
    let tallied = sides::replay_tally(&mut state, &log, u64::MAX);
    assert_eq!(tallied.tally, Some(tally_of(&[(5, TIMES), (NONE, TIMES)])));
}

/// Where nothing is tried the tally is started from zero all the same.
#[test]
fn nothing_tried() {
    let wedge = log_of(&[Step::wedge(0, 1, 5)]);
    let cases: [(&[u8], u64, u64, u64); 8] = [
        (&[], 0, 0, 0),
        (&[], 1, 0, 0),
        (&[], u64::MAX, 0, 0),
        (&wedge, 0, 0, 1),
        (&[8], 0, 0, 1),
        (&[8], 1, 3, 2),
        (&[0], u64::MAX, 4, 2),
        (&wedge[..3], 1, 5, 2),
    ];
    for (log, budget, answer, stop) in cases {
        let mut state = Triplet::new(&Script::begin().words);
        let tallied = sides::replay_tally(&mut state, log, budget);
        let replayed = Replayed { answer, report: Some([stop, 0, 0, 0]) };
        let expected = Tallied { replayed, tally: Some(ZEROS) };
        assert_eq!(tallied, expected, "{log:?} with budget {budget}");
    }
}

/// Every length of both outputs up to a few words more than they need: 8 comes first, whatever the state is.
#[test]
fn short_outputs() {
    let good = Script::begin().words;
    let mut out_of_form = good.clone();
    out_of_form[1] = 9;
    let rejected = log_of(&[Step::wedge(0, 1, 5)]);
    let damaged = [&rejected[..], &[8]].concat();
    let calls: [(&[u64], &[u8], u64); 5] = [
        (&good, &[], 0),
        (&good, &rejected, 0),
        (&good, &damaged, 3),
        (&good[1..], &rejected, 1),
        (&out_of_form, &rejected, 9),
    ];
    for (words, log, answer) in calls {
        let enough = sides::replay_tally(&mut Triplet::new(words), log, u64::MAX);
        assert_eq!(enough.replayed.answer, answer, "{log:?}");
        for lengths in (0..=6).flat_map(|report| (0..=20).map(move |tally| [report, tally])) {
            let mut state = Triplet::new(words);
            let tallied = sides::replay_tally_into(&mut state, log, u64::MAX, lengths);
            let expected = if are_short(lengths) { SHORT } else { enough };
            assert_eq!(tallied, expected, "{log:?} with outputs of {lengths:?} words");
        }
    }
}

/// Outputs of any length, states out of form and of a wrong length, any logs.
#[test]
fn any_calls() {
    let mut random = Random::new(settings::seed() + 3);
    let mut answers = [0u64; 10];
    for run in 0..4_000 {
        let mut words = well_formed(&mut random, 2 + run % 7);
        let temper = Temper::any(&mut random);
        let mut log = any_log(&mut random, &words, &temper, 3);
        spoil(&mut random, &mut log);
        let lengths = [2 + random.place(8), 15 + random.place(20)];
        let out_of_form = spoil_state(&mut random, &mut words);
        let tallied = sides::replay_tally_into(&mut Triplet::new(&words), &log, u64::MAX, lengths);
        let rejected = match () {
            _ if are_short(lengths) => Some(8),
            _ if !words.len().is_multiple_of(SHARD_WORDS) => Some(1),
            _ if out_of_form => Some(9),
            _ => None,
        };
        let Replayed { answer, .. } = sides::replay(&mut Triplet::new(&words), &log, u64::MAX);
        assert_eq!(tallied.replayed.answer, rejected.unwrap_or(answer), "{lengths:?} words");
        assert_eq!(tallied.tally.is_none(), rejected.is_some(), "{lengths:?} words");
        answers[tallied.replayed.answer as usize] += 1;
    }
    println!("answers: {answers:?}");
    assert!([0, 1, 5, 6, 8, 9].iter().all(|&answer| answers[answer] > 100), "{answers:?}");
}
