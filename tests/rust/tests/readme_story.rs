//! The story of README, told with the library: its text, from which box the new one began, and on which box its
//! rejections fall.

use penkwadar_tests::proved::{
    Rejection, Report, Seat, State, Step, Stop, Tally, transcript, write_step,
};
use penkwadar_tests::view::issue;

/// The program's plan: shard 0 has hosts 0 and 1, shard 1 has hosts 2 and 3.
const PLAN: [u64; 6] = [1, 0b0011, 0, 0, 0b1100, 2];

const STORY: [Step; 15] = [
    Step::add(1, 1, 12),
    Step::learn(1, 1, 2, 1),
    Step::adopt(1, 1, 3),
    Step::learn(1, 1, 3, 1),
    Step::add(0, 1, issue(2, 1, 5, 1 << 2 | 1 << 5)),
    Step::adopt(0, 1, 1),
    Step::learn(0, 1, 1, 1),
    Step::wedge(1, 1, 2),
    Step::install(1, 1, 1, 0),
    Step::inherit(1, 2, 5, 2),
    Step::inherit(1, 2, 2, 2),
    Step::add(1, 2, 13),
    Step::adopt(1, 2, 2),
    Step::learn(1, 2, 5, 2),
    Step::add(1, 1, 99),
];

fn log() -> Vec<u8> {
    let mut bytes = vec![0; STORY.len() * 21];
    let mut end = 0;
    for step in STORY {
        end += write_step(&mut bytes, end, step).expect("room for 21 bytes a step");
    }
    bytes.truncate(end);
    bytes
}

/// The text that README shows for it.
fn printed() -> &'static str {
    let page = include_str!("../../../README.md");
    let text = page.split_once("```text\n").expect("a text").1;
    text.split_once("```").expect("its end").0
}

#[test]
fn text() {
    let mut out = [0; 1000];
    let length = transcript(&log(), &mut out).expect("a short text");
    assert_eq!(std::str::from_utf8(&out[..length]), Ok(printed()));
}

/// Box 3 lags behind, and it is the confirm of box 2 that is turned back and counts.
#[test]
fn tally() {
    let mut state = State::setup(&PLAN).expect("the program's plan");
    let answers = STORY.map(|step| state.step(step));
    assert_eq!(answers[1], Err(Rejection::NotAlike), "box 3 lags behind");
    assert_eq!(answers[14], Err(Rejection::ActingMode), "box 2 is wedged");

    let mut replayed = State::setup(&PLAN).expect("the program's plan");
    let mut tally = Tally::default();
    let report = replayed.replay_tally(&log(), u64::MAX, &mut tally);
    assert_eq!(report, Ok(Report { stop: Stop::Ended, tried: 15, rejected: 2, bytes: 71 }));
    assert_eq!((tally.of(2), tally.of(3), tally.total()), (2, 0, 2));
    assert_eq!(replayed, state, "the steps one by one");
}

#[test]
fn trace() {
    let mut state = State::setup(&PLAN).expect("the program's plan");
    assert!(state.replay(&log(), u64::MAX).is_ok());
    assert_eq!(state.trace(Seat { shard: 1, index: 2, host: 5 }), Ok(vec![2]));
    assert_eq!(state.stable_prefix(Seat { shard: 1, index: 1, host: 3 }), Ok(vec![12]));
}
