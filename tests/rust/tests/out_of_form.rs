//! States of a wrong length or form, with every kind of step, replay, with and without a tally, and trace.

use penkwadar_tests::seat::Seat;
use penkwadar_tests::step::Step;
use penkwadar_tests::testing::plans::plan;
use penkwadar_tests::testing::random::Random;
use penkwadar_tests::testing::settings;
use penkwadar_tests::testing::sides;
use penkwadar_tests::testing::states::well_formed;
use penkwadar_tests::testing::triplet::Triplet;
use penkwadar_tests::view::{SHARD_WORDS, issue};

/// One step of each kind, in range whatever the state is.
const STEPS: [Step; 7] = [
    Step::add(0, 1, 7),
    Step::adopt(0, 1, 1),
    Step::learn(1, 1, 2, 1),
    Step::wedge(1, 2, 3),
    Step::install(0, 1, 2, 0),
    Step::inherit(1, 2, 3, 4),
    Step::catch_up(1, 2, 3, 4),
];

/// In range whatever the state is.
const SEAT: Seat = Seat { shard: 1, index: 2, host: 3 };

/// Add 7, and wedge shard 1, index 2, host 3.
const LOG: [u8; 8] = [1, 0, 1, 7, 4, 1, 2, 3];

/// How often a state was found well-formed or not.
#[derive(Default)]
struct Found {
    well_formed: u64,
    not: u64,
}

impl Found {
    /// Tries every kind of step, both replays and a trace on a state; all of them find it well-formed, or none.
    fn try_all(&mut self, state: &mut Triplet<u64>, contents: &[u64]) -> bool {
        let replayed = sides::replay(state, &LOG, u64::MAX);
        let rejected = replayed.answer == 9;
        restore(state, contents, !rejected);
        let tallied = sides::replay_tally(state, &LOG, u64::MAX);
        assert_eq!(tallied.replayed, replayed, "with and without a tally");
        restore(state, contents, !rejected);
        for step in STEPS {
            let answer = sides::step(state, step);
            assert_eq!(answer == 9, rejected, "{step:?} and replay see one form");
            restore(state, contents, answer == 0);
        }
        let traced = sides::trace(state, SEAT, &mut Triplet::filled(7, 5), 1);
        assert_eq!(traced == Err(9), rejected, "trace and replay see one form");
        match rejected {
            true => self.not += 1,
            false => self.well_formed += 1,
        }
        rejected
    }
}

fn restore(state: &mut Triplet<u64>, contents: &[u64], changed: bool) {
    if changed {
        state.edit(|words| words.copy_from_slice(contents));
    }
}

/// Every word of a state in turn holds each of many values.
fn every_word(words: &[u64]) {
    let mut found = Found::default();
    let mut state = Triplet::new(words);
    let mut contents = words.to_vec();
    for (place, &old) in words.iter().enumerate() {
        for value in values(old) {
            contents[place] = value;
            state.edit(|words| words[place] = value);
            let rejected = found.try_all(&mut state, &contents);
            assert!(rejected || value != u64::MAX, "2^64 - 1 is out of form in word {place}");
        }
        contents[place] = old;
        state.edit(|words| words[place] = old);
    }
    let Found { well_formed, not } = found;
    println!("{not} states out of form, {well_formed} well-formed");
    assert!(not > words.len() as u64 * 10 && well_formed > 0);
}

/// Values near the limits of some field, and near the old one.
fn values(old: u64) -> Vec<u64> {
    let mut values = vec![0, 1, 2, 3, 4, 8, 9, 16, 17, 56, 57, 1 << 32, 1 << 63, u64::MAX];
    values.extend([old.wrapping_add(1), old.wrapping_sub(1)]);
    values.extend([16, 20, 32].map(|bit| old ^ 1 << bit));
    // As many ones, but of host 16.
    values.push(old & old.wrapping_sub(1) | 1 << 16);
    if old >= 1 << 32 {
        values.extend(issues(old));
    }
    values.retain(|&value| value != old);
    values.sort();
    values.dedup();
    values
}

/// Issues near the limits, and issues with other parts than the old one.
fn issues(old: u64) -> Vec<u64> {
    let mut issues = vec![issue(2, 0, 0, 1), issue(8, 1, 15, 0b1111 << 12)];
    issues.extend([issue(1, 0, 0, 1), issue(9, 0, 0, 1), issue(2, 2, 0, 1), issue(2, 8, 0, 1)]);
    issues.extend([issue(2, 0, 0, 0), issue(2, 0, 1, 1), issue(2, 0, 0, 0b1_1111)]);
    issues.extend([0, 15, 19, 23, 24, 27].map(|bit| old ^ 1 << bit));
    issues
}

#[test]
fn every_word_after_setup() {
    let mut random = Random::new(settings::seed());
    let mut state = Triplet::filled(2 * SHARD_WORDS, 0);
    let plan = plan(&mut random, 2);
    assert_eq!(sides::setup(&mut state, &plan), 0);
    every_word(state.get());
}

#[test]
fn every_word_of_a_full_state() {
    let mut random = Random::new(settings::seed() + 1);
    every_word(&well_formed(&mut random, 2));
}

/// States of every number of shards with one to three words changed, also to huge values.
#[test]
fn random_words() {
    let mut random = Random::new(settings::seed() + 2);
    let mut found = Found::default();
    for shards in 2..=8 {
        for _ in 0..400 {
            let mut contents = well_formed(&mut random, shards);
            for _ in 0..random.below(3) + 1 {
                let place = likely_place(&mut random, contents.len());
                let values = values(contents[place]);
                contents[place] = match random.chance(80) {
                    true => random.pick(&values),
                    false => random.any_width(),
                };
            }
            found.try_all(&mut Triplet::new(&contents), &contents);
        }
    }
    assert!(found.not > 1_000 && found.well_formed > 20, "{} and {}", found.not, found.well_formed);
}

/// Half of the places are in a head or at the start of a replica.
fn likely_place(random: &mut Random, words: usize) -> usize {
    let block = random.place(words / SHARD_WORDS) * SHARD_WORDS;
    match random.below(4) {
        0 => block + random.place(18),
        1 => block + 64 + random.place(32) * 64 + random.place(9),
        _ => block + random.place(SHARD_WORDS),
    }
}

/// Every assignment of sequencers, also of shards that are not there.
#[test]
fn every_assignment_of_sequencers() {
    let mut random = Random::new(settings::seed() + 4);
    for shards in 2..=4 {
        let mut contents = well_formed(&mut random, shards);
        let values = shards + 1;
        for mut number in 0..values.pow(shards as u32) {
            let mut sequencers = Vec::new();
            for block in contents.chunks_exact_mut(SHARD_WORDS) {
                block[0] = number % values;
                number /= values;
                sequencers.push(block[0]);
            }
            let mut state = Triplet::new(&contents);
            let rejected = sides::replay(&mut state, &[], 0).answer == 9;
            assert_ne!(rejected, are_sequencers(&sequencers), "{sequencers:?}");
        }
    }
}

/// Each is another shard, and no two are alike.
fn are_sequencers(sequencers: &[u64]) -> bool {
    sequencers.iter().enumerate().all(|(shard, sequencer)| {
        *sequencer < sequencers.len() as u64
            && *sequencer != shard as u64
            && sequencers[..shard].iter().all(|other| other != sequencer)
    })
}

/// Lengths that are no state's get 1 from everything, before anything else is looked at.
#[test]
fn wrong_lengths() {
    let mut lengths = vec![0, 1, 64, 2_111, 2_112, 2_113, 9 * 2_112, 35_903];
    lengths.extend((2..=8).flat_map(|shards| [shards * 2_112 - 1, shards * 2_112 + 1]));
    let mut random = Random::new(settings::seed() + 3);
    let well_formed = well_formed(&mut random, 8);
    for length in lengths {
        let mut contents = well_formed.clone();
        contents.resize(length, 0);
        let mut state = Triplet::new(&contents);
        for step in STEPS.into_iter().chain([Step::default(), Step::new(8, [u64::MAX; 4])]) {
            assert_eq!(sides::step(&mut state, step), 1, "{step:?} on {length} words");
        }
        let replayed = sides::replay(&mut state, &LOG, 1);
        assert_eq!(replayed.answer, 1, "replay on {length} words");
        let tallied = sides::replay_tally(&mut state, &LOG, 1);
        assert_eq!(tallied.replayed, replayed, "replay with a tally on {length} words");
        let traced = sides::trace(&mut state, SEAT, &mut Triplet::filled(7, 5), 1);
        assert_eq!(traced, Err(1), "trace on {length} words");
    }
}

/// What is asked first: length, kind, range, form.
#[test]
fn order_of_rejections() {
    let mut state = Triplet::filled(2 * SHARD_WORDS, 0);
    let expected = [
        (Step::new(8, [9; 4]), 3),
        (Step::new(31, [9; 4]), 3),
        (Step::new(32, [9; 4]), 4),
        (Step::new(0, [9; 4]), 4),
        (Step::add(2, 1, 7), 7),
        (Step::add(0, 9, 7), 7),
        (Step::add(0, 1, 0), 7),
        (Step::new(2, [0, 1, 1, 1]), 7),
        (Step::new(7, [9; 4]), 7),
        (Step::catch_up(0, 1, 0, 16), 7),
        (Step::catch_up(0, 1, 0, 1), 9),
        (Step::add(0, 1, 7), 9),
    ];
    for (step, answer) in expected {
        assert_eq!(sides::step(&mut state, step), answer, "{step:?}");
    }
}
