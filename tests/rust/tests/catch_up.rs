//! Catching up from a peer: every index, host and peer, on states that need not come from any setup, against the
//! sentences of request A4.

use penkwadar_tests::seat::Seat;
use penkwadar_tests::step::Step;
use penkwadar_tests::testing::catch_ups::CatchUps;
use penkwadar_tests::testing::random::Random;
use penkwadar_tests::testing::seats::{all_seats, rejection};
use penkwadar_tests::testing::settings;
use penkwadar_tests::testing::sides;
use penkwadar_tests::testing::states::well_formed;
use penkwadar_tests::testing::triplet::Triplet;
use penkwadar_tests::view::{ACTIVE, PENDING, View};

/// The answer on a well-formed state: "the order is that of inherit", 10, 11, 12, 13, after the range of all numbers.
fn answer(view: View, seat: Seat, peer: u64) -> u64 {
    let mode = |host| view.replica(seat.shard, seat.index, host).map(|replica| replica.mode());
    match rejection(view, seat) {
        0 | 10 | 11 if peer > 15 => 7,
        0 if mode(seat.host) != Some(PENDING) => 12,
        // "A source that is no member or is pending gets 13"
        0 if mode(peer).is_none_or(|mode| mode == PENDING) => 13,
        answer => answer,
    }
}

/// The words after an accepted one: list, confirmed length and word 3 of the peer, and the mode active.
fn after(words: &[u64], Seat { shard, index, host }: Seat, peer: u64) -> Vec<u64> {
    let [to, from] = [host, peer].map(|host| View::new(words).place(shard, index, host));
    let mut after = words.to_vec();
    after.copy_within(from + 1..from + 64, to + 1);
    after[to] = ACTIVE;
    after
}

/// Every host of every index, with all peers; where the host has no replica, with few.
fn hosts_and_peers(view: View, shard: u64) -> impl Iterator<Item = (Seat, u64)> {
    all_seats(shard).flat_map(move |seat| {
        let first = if rejection(view, seat) == 0 { 0 } else { 14 };
        (first..=16).map(move |peer| (seat, peer))
    })
}

#[test]
fn every_host_and_peer() {
    let mut random = Random::new(settings::seed());
    let (mut answers, mut catch_ups) = ([0u64; 14], CatchUps::default());
    for run in 0..140 {
        let words = well_formed(&mut random, 2 + run % 7);
        let (view, mut state) = (View::new(&words), Triplet::new(&words));
        for (seat, peer) in hosts_and_peers(view, run % 2) {
            let step = Step::catch_up(seat.shard, seat.index, seat.host, peer);
            let got = sides::step(&mut state, step);
            assert_eq!(got, answer(view, seat, peer), "{step:?}");
            answers[got as usize] += 1;
            catch_ups.note(step, got, view);
            if got == 0 {
                assert!(state.get() == after(&words, seat, peer), "{step:?}");
                state.edit(|now| now.copy_from_slice(&words));
            }
        }
    }
    println!("answers: {answers:?}; {catch_ups}");
    assert!([0, 7, 10, 11, 12, 13].iter().all(|&answer| answers[answer] > 100), "{answers:?}");
    assert!(catch_ups.are_complete(50), "{catch_ups}");
}

/// Numbers above their ranges, also such that wrap to good ones.
#[test]
fn huge_numbers() {
    let mut random = Random::new(settings::seed() + 1);
    let mut state = Triplet::new(&well_formed(&mut random, 2));
    for place in 0..4 {
        for huge in [1 << 32, 1 << 63, (1 << 32) + 1, u64::MAX] {
            let mut step = Step::catch_up(0, 1, 0, 1);
            step.numbers[place] = huge;
            assert_eq!(sides::step(&mut state, step), 7, "{step:?}");
        }
    }
}
