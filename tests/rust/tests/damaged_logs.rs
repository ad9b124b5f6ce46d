//! Damaged logs: every kind of damage, in every part of a step, after every number of whole steps.

use std::collections::BTreeSet;

use penkwadar_tests::step::Step;
use penkwadar_tests::testing::logs::{push_number, push_step, used};
use penkwadar_tests::testing::sides::{self, Replayed};
use penkwadar_tests::testing::triplet::Triplet;
use penkwadar_tests::view::{SHARD_WORDS, issue};

/// The program's plan.
const PLAN: [u64; 6] = [1, 0b0011, 0, 0, 0b1100, 2];

/// Steps of all kinds with numbers of one to five bytes; all but two are accepted.
fn steps() -> Vec<Step> {
    let successor = issue(2, 1, 3, 0b10_1000);
    vec![
        Step::add(0, 1, 7),
        Step::add(0, 1, successor),
        Step::adopt(0, 1, 1),
        Step::learn(0, 1, 0, 2),
        Step::learn(0, 1, 1, 300),
        Step::add(1, 1, 20_000),
        Step::wedge(1, 1, 2),
        Step::install(1, 1, 0, 1),
        Step::inherit(1, 2, 3, 2),
        Step::catch_up(1, 2, 5, 3),
        Step::add(1, 2, 3_000_000),
        Step::adopt(1, 2, 5),
        Step::learn(1, 2, 5, 2),
        Step::wedge(1 << 34, 1, 0),
    ]
}

/// The log of the steps, and where each begins.
fn log() -> (Vec<u8>, Vec<usize>) {
    let (mut log, mut starts) = (Vec::new(), Vec::new());
    for step in steps() {
        starts.push(log.len());
        push_step(&mut log, step);
    }
    (log, starts)
}

fn fresh_state() -> Triplet<u64> {
    let mut state = Triplet::filled(2 * SHARD_WORDS, 0);
    assert_eq!(sides::setup(&mut state, &PLAN), 0);
    state
}

/// Replays without and with a tally, which do the same.
fn replay(log: &[u8], budget: u64) -> (Replayed, Triplet<u64>) {
    let (mut state, mut told) = (fresh_state(), fresh_state());
    let replayed = sides::replay(&mut state, log, budget);
    let tallied = sides::replay_tally(&mut told, log, budget);
    assert_eq!(tallied.replayed, replayed, "{log:02x?} with a tally");
    assert!(told.get() == state.get(), "state of {log:02x?} with a tally");
    (replayed, state)
}

/// The state after so many whole steps, and how many of them were rejected.
fn after_steps(count: usize) -> (Triplet<u64>, u64) {
    let mut state = fresh_state();
    let answers = steps().into_iter().take(count).map(|step| sides::step(&mut state, step));
    let rejected = answers.filter(|&answer| answer != 0).count();
    (state, rejected as u64)
}

/// A replay that stops after so many whole steps at bytes that get `damage` (0: at the end of the log).
fn assert_stop(bytes: &[u8], whole: usize, at: usize, damage: u64) {
    let (expected, rejected) = after_steps(whole);
    let stop = if damage == 0 { 0 } else { 2 };
    let report = |stop| Some([stop, whole as u64, rejected, at as u64]);
    let (replayed, state) = replay(bytes, u64::MAX);
    let damaged = Replayed { answer: damage, report: report(stop) };
    assert_eq!(replayed, damaged, "{bytes:02x?}");
    assert!(state.get() == expected.get(), "effects before the damage in {bytes:02x?}");
    // A budget used up just before the damage: it is not looked at.
    let (replayed, state) = replay(bytes, whole as u64);
    let spent = Replayed { answer: 0, report: report(u64::from(damage != 0)) };
    assert_eq!(replayed, spent, "{bytes:02x?} with budget {whole}");
    assert!(state.get() == expected.get(), "effects before the budget's end in {bytes:02x?}");
    match sides::read_step(bytes, at) {
        Ok(words) => assert_eq!((words, damage), ([0; 6], 0), "read at {at} of {bytes:02x?}"),
        Err(answer) => assert_eq!(answer, damage, "read at {at} of {bytes:02x?}"),
    }
}

#[test]
fn cut_at_every_byte() {
    let (log, starts) = log();
    assert_eq!(after_steps(starts.len()).1, 2, "steps that are rejected");
    for end in 0..=log.len() {
        let whole = starts.iter().filter(|&&start| start < end).count();
        match starts.contains(&end) || end == log.len() {
            true => assert_stop(&log[..end], whole, end, 0),
            false => assert_stop(&log[..end], whole - 1, starts[whole - 1], 5),
        }
    }
}

/// The bytes of a step up to one part: 0 is the kind, 1 to 4 the numbers.
fn up_to(step: Step, part: usize) -> Vec<u8> {
    let mut bytes = Vec::new();
    if part > 0 {
        push_number(&mut bytes, step.kind);
        step.numbers[..part - 1].iter().for_each(|&number| push_number(&mut bytes, number));
    }
    bytes
}

/// Bytes that are no number, and their damage. Some may be followed by anything, some only by nothing.
fn no_numbers() -> Vec<(Vec<u8>, u64, bool)> {
    let mut list = Vec::new();
    for length in 1..=4 {
        // Goes on where the log ends.
        list.push((vec![0x80; length], 5, false));
        list.push((vec![0xff; length], 5, false));
        // Ends in byte 0.
        list.push(([vec![0x80; length], vec![0]].concat(), 6, true));
        list.push(([vec![0xff; length], vec![0]].concat(), 6, true));
    }
    // The fifth byte goes on.
    list.push((vec![0x80; 5], 6, true));
    list.push((vec![0xff; 5], 6, true));
    list
}

#[test]
fn bytes_that_are_no_number() {
    let (log, starts) = log();
    let mut met = BTreeSet::new();
    for (whole, step) in steps().into_iter().enumerate() {
        for part in 0..=used(step.kind) {
            for (bytes, damage, anything_follows) in no_numbers() {
                let damaged = [&log[..starts[whole]], &up_to(step, part), &bytes].concat();
                assert_stop(&damaged, whole, starts[whole], damage);
                met.insert((damage, part));
                if anything_follows {
                    let followed = [&damaged, &log[starts[whole]..]].concat();
                    assert_stop(&followed, whole, starts[whole], damage);
                }
            }
        }
    }
    let all = [5, 6].map(|damage| [0, 1, 2, 3, 4].map(|part| (damage, part)));
    assert!(met.iter().eq(all.as_flattened()), "both in every part: {met:?}");
}

#[test]
fn kinds_that_are_none() {
    let (log, starts) = log();
    let starts = starts.into_iter().chain([log.len()]);
    let kinds = (8..=31)
        .map(|kind| (kind, 3))
        .chain([0, 32, 33, 127, 128, 160, 1 << 14, 1 << 32, (1 << 35) - 1].map(|kind| (kind, 4)));
    let mut met = [0; 5];
    for (whole, start) in starts.enumerate() {
        for (kind, damage) in kinds.clone() {
            let mut damaged = log[..start].to_vec();
            push_number(&mut damaged, kind);
            assert_stop(&damaged, whole, start, damage);
            // Nothing that follows is looked at.
            for rest in [&[0x80][..], &[0x80, 0x00], &[0xff; 6], &[0, 1, 7]] {
                assert_stop(&[&damaged, rest].concat(), whole, start, damage);
            }
            met[damage as usize] += 1;
        }
    }
    assert!(met[3] > 100 && met[4] > 100, "{met:?}");
}

/// Every byte takes every value: whatever it becomes, all sides say the same.
#[test]
fn every_value_of_every_byte() {
    let (log, _) = log();
    let mut answers = [0u64; 7];
    for place in 0..log.len() {
        for value in 0..=255 {
            let mut changed = log.clone();
            changed[place] = value;
            answers[replay(&changed, u64::MAX).0.answer as usize] += 1;
            for at in place.saturating_sub(5)..=place {
                // Compared inside; the answer depends on what lies there.
                let _ = sides::read_step(&changed, at);
            }
        }
    }
    println!("damage of {} changed logs: {answers:?}", log.len() * 256);
    assert!([0, 3, 4, 5, 6].iter().all(|&answer| answers[answer] > 0), "{answers:?}");
}

/// A kind is a number like the others, and is judged before what follows.
#[test]
fn edges_of_document_01() {
    let expected: [(&[u8], u64); 18] = [
        (&[0x80], 5),
        (&[0x80, 0x00], 6),
        (&[1, 0x80, 0x80, 0x80, 0x80, 0x80], 6),
        (&[0x87, 0x00], 6),
        (&[0xa0, 0x01], 4),
        (&[0xff, 0xff, 0xff, 0xff, 0x7f], 4),
        (&[0xff, 0xff, 0xff, 0xff, 0xff], 6),
        (&[0xff, 0xff, 0xff, 0xff], 5),
        (&[7], 5),
        (&[7, 0x80], 5),
        (&[7, 0x80, 0x00], 6),
        (&[8], 3),
        (&[8, 0x80], 3),
        (&[8, 0x80, 0x00], 3),
        (&[0x80, 0x80, 0x80, 0x80, 0x00], 6),
        (&[4, 1, 2], 5),
        (&[7, 1, 2, 5], 5),
        (&[0], 4),
    ];
    for (bytes, answer) in expected {
        assert_eq!(sides::read_step(bytes, 0), Err(answer), "{bytes:02x?}");
        assert_stop(bytes, 0, 0, answer);
    }
    assert_eq!(sides::read_step(&[4, 1, 2, 5], 0), Ok([4, 1, 2, 5, 0, 4]));
    assert_eq!(sides::read_step(&[1, 0, 1, 0xac, 2], 0), Ok([1, 0, 1, 300, 0, 5]));
    assert_eq!(sides::read_step(&[7, 1, 2, 5, 3], 0), Ok([7, 1, 2, 5, 3, 5]));
}
