//! Why the state has to be kept as one (docs/ANSWER.md, "Where the state is not kept as one"): a box that confirms on an
//! old report of its colleague's list shows an entry that later lists do not have, and every step is accepted.

use std::ops::Range;

use penkwadar_tests::proved::{Rejection, Seat, State, Step};
use penkwadar_tests::view::{View, issue};

/// Shard 0 has hosts A and B, shard 1, its sequencer, hosts 2 and 3; the lower host orders.
const PLAN: [u64; 6] = [1, 0b0011, 0, 0, 0b1100, 2];

/// A and B are hosts of index 1 of shard 0, C and D of index 2, E of index 3. A, C and E order.
const A: u64 = 0;
const B: u64 = 1;
const C: u64 = 4;
const D: u64 = 5;
const E: u64 = 6;

/// C confirms its first entry.
const CONFIRM: Step = Step::learn(0, 2, C, 1);

/// Tries steps that are all accepted.
fn run(state: &mut State, steps: &[Step]) {
    for &step in steps {
        assert_eq!(state.step(step), Ok(()), "{step:?}");
    }
}

/// The next index of shard 0 is issued in shard 1, confirmed there, and installed.
fn appoint(state: &mut State, index: u64, orderer: u64, members: u64) {
    let entry = issue(index, 0, orderer, members);
    run(state, &[Step::add(1, 1, entry), Step::adopt(1, 1, 3), Step::learn(1, 1, 3, index - 1)]);
    run(state, &[Step::install(0, 1, 3, index - 2)]);
}

/// Where the words of a host's replica of index 2 are.
fn replica(state: &State, host: u64) -> Range<usize> {
    let place = View::new(state.words()).place(0, 2, host);
    place..place + 64
}

/// The history of a host, confirmed or not.
fn history(state: &State, index: u64, host: u64) -> Vec<u64> {
    let view = View::new(state.words());
    view.replica(0, index, host).expect("a member").history().to_vec()
}

fn shown(state: &State, index: u64, host: u64) -> Vec<u64> {
    state.stable_prefix(Seat { shard: 0, index, host }).expect("a member")
}

/// A is wedged with take 1, B with nothing; C inherits from B, and D from A. What D reports then is the second result.
/// Then D adopts the list of C, which is empty, and C adds take 1.
fn reported() -> (State, Vec<u64>) {
    let mut state = State::setup(&PLAN).expect("a good plan");
    run(&mut state, &[Step::add(0, 1, 1), Step::wedge(0, 1, A), Step::wedge(0, 1, B)]);
    appoint(&mut state, 2, C, 1 << C | 1 << D);
    run(&mut state, &[Step::inherit(0, 2, C, B), Step::inherit(0, 2, D, A)]);
    assert_eq!((history(&state, 2, C), history(&state, 2, D)), (vec![], vec![1]));
    let report = state.words()[replica(&state, D)].to_vec();
    run(&mut state, &[Step::adopt(0, 2, D), Step::add(0, 2, 1)]);
    assert_eq!((history(&state, 2, C), history(&state, 2, D)), (vec![1], vec![]));
    (state, report)
}

/// D is wedged; E, alone in index 3, inherits from it, adds take 2 and confirms it.
fn goes_on(state: &mut State) {
    run(state, &[Step::wedge(0, 2, D)]);
    appoint(state, 3, E, 1 << E);
    run(state, &[Step::inherit(0, 3, E, D)]);
    assert_eq!(history(state, 3, E), [], "take 1 is not among what index 3 begins with");
    run(state, &[Step::add(0, 3, 2), Step::learn(0, 3, E, 1)]);
}

/// C confirms on the old report: what it showed is gone, and another entry stands in its place.
#[test]
fn a_confirm_on_an_old_report() {
    let (mut state, report) = reported();
    let mut known_to_c = state.clone();
    let (c, d) = (replica(&state, C), replica(&state, D));
    known_to_c.words_mut()[d].copy_from_slice(&report);
    run(&mut known_to_c, &[CONFIRM]);
    state.words_mut()[c.clone()].copy_from_slice(&known_to_c.words()[c]);
    let before = shown(&state, 2, C);
    assert_eq!(before, [1]);

    goes_on(&mut state);
    let after = shown(&state, 3, E);
    assert_eq!(after, [2]);
    assert!(!before.starts_with(&after) && !after.starts_with(&before), "two lists");
}

/// On one state that confirm is rejected, and of any two lists that are shown one begins the other.
#[test]
fn the_same_on_one_state() {
    let (mut state, _) = reported();
    let before = state.clone();
    assert_eq!(Rejection::NotAlike.number(), 19);
    assert_eq!(state.step(CONFIRM), Err(Rejection::NotAlike));
    assert_eq!(state, before, "as it was");
    assert_eq!(shown(&state, 2, C), []);
    goes_on(&mut state);
    assert_eq!((shown(&state, 2, C), shown(&state, 3, E)), (vec![], vec![2]));
}
