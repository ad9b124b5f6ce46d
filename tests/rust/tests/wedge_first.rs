//! Wedge first, appoint afterwards: an install needs an immutable replica in the newest configuration of its shard, on
//! states that need not come from any setup, against the sentences of request A6; and so in runs from setup a pending
//! replica always finds one to inherit from.

use std::collections::BTreeMap;

use penkwadar_tests::plain;
use penkwadar_tests::seat::Seat;
use penkwadar_tests::step::Step;
use penkwadar_tests::testing::coverage::ANSWERS;
use penkwadar_tests::testing::next::write_next;
use penkwadar_tests::testing::plans::{configuration, plan};
use penkwadar_tests::testing::random::Random;
use penkwadar_tests::testing::script::{INSTALL, PLAN};
use penkwadar_tests::testing::seats::{all_seats, rejection};
use penkwadar_tests::testing::settings;
use penkwadar_tests::testing::sides;
use penkwadar_tests::testing::states::well_formed;
use penkwadar_tests::testing::steps::any_step;
use penkwadar_tests::testing::temper::Temper;
use penkwadar_tests::testing::triplet::Triplet;
use penkwadar_tests::view::{
    ACTIVE, HISTORY, IMMUTABLE, PENDING, SHARD_WORDS, View, issue, issued_for,
};

/// The highest index.
const LAST: u64 = 8;

/// A place behind the last one that a history can have.
const BEHIND: u64 = HISTORY as u64;

/// The answer on a well-formed state to an install from a seat of the sequencer: 10, 11, 20, 21, 24, 22, after the range
/// of all numbers.
fn answer(view: View, shard: u64, seat: Seat, place: u64) -> u64 {
    match rejection(view, seat) {
        0 | 10 | 11 if place >= BEHIND => 7,
        0 => {
            let replica = view.replica(seat.shard, seat.index, seat.host).expect("a member");
            answer_at(view, shard, replica.stable(), place as usize)
        }
        answer => answer,
    }
}

/// The answer to an install from a place of a stable prefix.
fn answer_at(view: View, shard: u64, stable: &[u64], place: usize) -> u64 {
    let next = view.installed(shard) + 1;
    let issued = stable.get(place).and_then(|&entry| issued_for(entry));
    let mut earlier = stable.iter().take(place).filter_map(|&entry| issued_for(entry));
    match issued.filter(|&(of, _)| of == shard) {
        None => 20,
        Some((_, index)) if index != next => 21,
        // "Install now needs an immutable seat in the zone's newest configuration."
        Some(_) if !view.is_newest_wedged(shard) => 24,
        Some(issued) if earlier.any(|other| other == issued) => 22,
        Some(_) => 0,
    }
}

/// What installs met.
#[derive(Debug, Default)]
struct Met {
    answers: [u64; ANSWERS],
    /// Ones rejected with 24 although replicas of an older index, or of the sequencer's newest one, are immutable.
    older: u64,
    sequencer: u64,
}

impl Met {
    /// Notes an install on a state and its answer.
    fn note(&mut self, view: View, shard: u64, answer: u64) {
        self.answers[answer as usize] += 1;
        if answer == 24 {
            let newest = view.installed(shard);
            self.older += u64::from((1..newest).any(|index| view.is_wedged(shard, index)));
            self.sequencer += u64::from(view.is_newest_wedged(view.sequencer(shard)));
        }
    }

    fn assert_complete(&self) {
        let answers = [0, 7, 10, 11, 20, 21, 22, 24];
        assert!(answers.iter().all(|&answer| self.answers[answer] > 100), "{self:?}");
        assert!(self.older > 100 && self.sequencer > 100, "{self:?}");
    }
}

/// Puts issues of a shard's next configuration in many places of its sequencer's histories, if there is a next one.
fn issue_often(random: &mut Random, words: &mut [u64], shard: u64) {
    let view = View::new(words);
    let (sequencer, next) = (view.sequencer(shard), view.installed(shard) + 1);
    let block = &mut words[sequencer as usize * SHARD_WORDS..][..SHARD_WORDS];
    for replica in block[64..].chunks_exact_mut(64) {
        let length = replica[1] as usize;
        for entry in &mut replica[8..][..length] {
            if next <= LAST && random.chance(5) {
                let (members, orderer) = configuration(random);
                *entry = issue(next, shard, orderer, members);
            }
        }
    }
}

/// Every host of every index of the sequencer, with all places; where the host has no replica, with few.
fn seats_and_places(view: View, shard: u64) -> impl Iterator<Item = (Seat, u64)> {
    all_seats(view.sequencer(shard)).flat_map(move |seat| {
        let first = if rejection(view, seat) == 0 { 0 } else { BEHIND - 1 };
        (first..=BEHIND).map(move |place| (seat, place))
    })
}

#[test]
fn every_host_and_place() {
    let mut random = Random::new(settings::seed());
    let mut met = Met::default();
    for run in 0..140 {
        let (shards, shard) = (2 + run % 7, run % 2);
        let mut words = well_formed(&mut random, shards);
        issue_often(&mut random, &mut words, shard);
        let (view, mut state) = (View::new(&words), Triplet::new(&words));
        for (seat, place) in seats_and_places(view, shard) {
            let step = Step::install(shard, seat.index, seat.host, place);
            let got = sides::step(&mut state, step);
            assert_eq!(got, answer(view, shard, seat, place), "{step:?}");
            met.note(view, shard, got);
            if got == 0 {
                let entry =
                    words[view.place(seat.shard, seat.index, seat.host) + 8 + place as usize];
                let mut after = words.clone();
                write_next(&mut after, shard, entry);
                assert!(state.get() == after, "{step:?}");
                state.edit(|now| now.copy_from_slice(&words));
            }
        }
    }
    println!("{met:?}");
    met.assert_complete();
}

/// Every newest index, number of replicas and assignment of modes: one that is immutable is enough, whichever it is, and
/// without any the answer is 24. No replica of index 1 is pending.
#[test]
fn every_mode() {
    let mut met = BTreeMap::new();
    for (newest, size) in (1..LAST).flat_map(|newest| (1..=4).map(move |size| (newest, size))) {
        let words = with_newest(newest, size);
        let least = if newest == 1 { ACTIVE } else { PENDING };
        let kinds = IMMUTABLE - least + 1;
        for number in 0..kinds.pow(size) {
            let mode = |place| least + number / kinds.pow(place) % kinds;
            let modes: Vec<u64> = (0..size).map(mode).collect();
            let mut state = Triplet::new(&words);
            state.edit(|words| write_modes(words, newest, &modes));
            let answer = sides::step(&mut state, Step::install(0, 1, 0, 0));
            assert_eq!(answer, if modes.contains(&IMMUTABLE) { 0 } else { 24 }, "{modes:?}");
            *met.entry(answer).or_insert(0) += 1;
        }
    }
    assert_eq!(met, BTreeMap::from([(0, 566), (24, 184)]), "assignments with and without one");
}

/// A state whose shard 0 has configurations up to an index, each of so many hosts; shard 1 issues the next one.
fn with_newest(newest: u64, size: u32) -> Vec<u64> {
    let members = (1 << size) - 1;
    let mut words = vec![0; 2 * SHARD_WORDS];
    plain::setup(&mut words, &[1, members, 0, 0, 1, 0]).expect("a good plan");
    for index in 1..newest {
        write_modes(&mut words, index, &vec![ACTIVE; size as usize]);
        write_next(&mut words, 0, issue(index + 1, 0, 0, members));
    }
    write_issues(&mut words, &[issue(newest + 1, 0, 4, 1 << 4)]);
    words
}

/// The replicas of an index of shard 0 get modes. Those after index 1 that are not pending began from host 0.
fn write_modes(words: &mut [u64], index: u64, modes: &[u64]) {
    let first = View::new(words).place(0, index, 0);
    for (replica, &mode) in words[first..].chunks_exact_mut(64).zip(modes) {
        (replica[0], replica[3]) = (mode, u64::from(index > 1 && mode != PENDING));
    }
}

/// The first replica of shard 1 has these issues, all stable.
fn write_issues(words: &mut [u64], issues: &[u64]) {
    let replica = &mut words[SHARD_WORDS + 64..][..64];
    replica[1..3].fill(issues.len() as u64);
    replica[8..][..issues.len()].copy_from_slice(issues);
}

/// At every moment of a run every pending replica can inherit, and just from immutable ones. A step that is accepted
/// changes one shard.
#[test]
fn every_heir_has_a_source() {
    let mut heirs = [0u64; 9];
    for run in 0..100 {
        let random = &mut Random::of_run(settings::seed(), run);
        let shards = random.within(2..=3);
        let mut state = Triplet::filled(shards as usize * SHARD_WORDS, random.word());
        assert_eq!(sides::setup(&mut state, &plan(random, shards)), 0);
        let temper = Temper::any(random);
        for _ in 0..600 {
            let step = any_step(random, View::new(state.get()), &temper);
            if sides::step(&mut state, step) == 0 {
                assert_sources(state.get(), step.numbers[0], &mut heirs);
            }
        }
    }
    println!("pending replicas by index: {heirs:?}");
    assert!(heirs[2..].iter().all(|&count| count > 100), "{heirs:?}");
}

/// Tries all inherits of a shard's pending replicas, each on a copy of the state, and counts the replicas by index.
fn assert_sources(words: &[u64], shard: u64, heirs: &mut [u64; 9]) {
    let view = View::new(words);
    for heir in view.all_replicas(shard).filter(|replica| replica.mode() == PENDING) {
        let is_source = |host| {
            let inherit = Step::inherit(shard, heir.index, heir.host, host);
            sides::step(&mut Triplet::new(words), inherit) == 0
        };
        let before = view.replicas(shard, heir.index - 1);
        let (wedged, others): (Vec<_>, Vec<_>) = before.partition(|old| old.mode() == IMMUTABLE);
        assert!(!wedged.is_empty(), "host {} of index {}", heir.host, heir.index);
        assert!(wedged.iter().all(|replica| is_source(replica.host)));
        assert!(!others.iter().any(|replica| is_source(replica.host)));
        heirs[heir.index as usize] += 1;
    }
}

/// The state after setup: shard 0 has hosts 0 and 1, shard 1 has hosts 2 and 3.
fn after_setup() -> Triplet<u64> {
    let mut state = Triplet::filled(2 * SHARD_WORDS, 0);
    assert_eq!(sides::setup(&mut state, &PLAN), 0);
    state
}

fn play(state: &mut Triplet<u64>, steps: &[(Step, u64)]) {
    for (number, &(step, answer)) in (1..).zip(steps) {
        assert_eq!(sides::step(state, step), answer, "step {number}, {step:?}");
    }
}

/// Shard 1 issues hosts 4 and 5 for index 2 of shard 0, and host 6 for index 3.
const ISSUED: [(Step, u64); 4] = [
    (Step::add(1, 1, issue(2, 0, 4, 1 << 4 | 1 << 5)), 0),
    (Step::add(1, 1, issue(3, 0, 6, 1 << 6)), 0),
    (Step::adopt(1, 1, 3), 0),
    (Step::learn(1, 1, 3, 2), 0),
];
/// .. and after `INSTALL` index 3 is installed so.
const INSTALL_3: Step = Step::install(0, 1, 3, 1);

/// Immutable replicas of index 1 do not count for index 3, nor do pending and active ones of index 2.
#[test]
fn wedged_in_an_older_index() {
    let mut state = after_setup();
    play(&mut state, &ISSUED);
    play(&mut state, &[(INSTALL, 24), (Step::wedge(0, 1, 0), 0), (Step::wedge(0, 1, 1), 0)]);
    play(&mut state, &[(INSTALL, 0), (INSTALL_3, 24), (Step::wedge(0, 2, 5), 12)]);
    play(&mut state, &[(Step::inherit(0, 2, 5, 1), 0), (INSTALL_3, 24)]);
    play(&mut state, &[(Step::catch_up(0, 2, 4, 5), 0), (INSTALL_3, 24)]);
    play(&mut state, &[(Step::wedge(0, 2, 5), 0), (INSTALL_3, 0)]);
}

/// Immutable replicas of the sequencer do not count, and it issues all the same.
#[test]
fn wedged_in_the_sequencer() {
    let mut state = after_setup();
    play(&mut state, &ISSUED);
    play(&mut state, &[(Step::wedge(1, 1, 2), 0), (Step::wedge(1, 1, 3), 0), (INSTALL, 24)]);
    play(&mut state, &[(Step::wedge(0, 1, 1), 0), (INSTALL, 0)]);
}

/// What is asked first, on a state that no setup leads to: host 2 of shard 1 has an issue for index 3 of shard 0, and
/// then two for index 2.
#[test]
fn order_of_rejections() {
    let issues = [issue(3, 0, 6, 1 << 6), issue(2, 0, 4, 1 << 4), issue(2, 0, 5, 1 << 5)];
    let mut state = after_setup();
    state.edit(|words| write_issues(words, &issues));
    let install = |place| Step::install(0, 1, 2, place);
    play(&mut state, &[(Step::install(0, 2, 2, 1), 10), (Step::install(0, 1, 4, 1), 11)]);
    play(&mut state, &[(install(BEHIND), 7), (install(3), 20), (install(0), 21)]);
    play(&mut state, &[(install(1), 24), (install(2), 24), (Step::wedge(0, 1, 0), 0)]);
    play(&mut state, &[(install(0), 21), (install(2), 22), (install(1), 0)]);
}
