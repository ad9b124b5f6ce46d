//! The safe wrappers of the proved machine, on the cases that document 01 lists.

use penkwadar_tests::proved::{
    LONGEST_LOG, Rejection, Report, Seat, State, Step, Stop, Tally, read_step, state_words,
    transcript, write_step,
};
use penkwadar_tests::view::{View, issue};

/// The program's plan: shard 0 has hosts 0 and 1, shard 1 has hosts 2 and 3.
const PLAN: [u64; 6] = [1, 0b0011, 0, 0, 0b1100, 2];

/// Index 2 of shard 1: hosts 3 and 5, orderer 3.
const SUCCESSOR: u64 = 4_329_766_952;

/// The same index and hosts, orderer 5.
const RIVAL: u64 = SUCCESSOR + (2 << 16);

fn state() -> State {
    State::setup(&PLAN).expect("the program's plan")
}

/// Tries steps that are all accepted.
fn run(state: &mut State, steps: &[Step]) {
    for &step in steps {
        assert_eq!(state.step(step), Ok(()), "{step:?}");
    }
}

/// Tries steps; all but the last are accepted.
fn last_of(steps: &[Step]) -> Result<(), Rejection> {
    let mut state = state();
    let (last, first) = steps.split_last().expect("a step");
    run(&mut state, first);
    state.step(*last)
}

#[test]
fn edge_cases_of_steps() {
    let seven = Step::add(0, 1, 7);
    let cases: [(&[Step], Result<(), Rejection>); 17] = [
        (&[seven, seven], Err(Rejection::EntryHeld)),
        (&[seven, Step::learn(0, 1, 0, 1)], Err(Rejection::NotAlike)),
        (&[Step::learn(0, 1, 0, 0)], Err(Rejection::NotAboveStable)),
        (&[Step::wedge(0, 1, 0), Step::wedge(0, 1, 0)], Err(Rejection::ActingMode)),
        (&[Step::adopt(0, 1, 0)], Err(Rejection::ByOrderer)),
        (&[Step::wedge(0, 1, 0), Step::adopt(0, 1, 0)], Err(Rejection::ByOrderer)),
        (&[Step::add(0, 1, SUCCESSOR)], Ok(())),
        (&[Step::add(0, 1, SUCCESSOR), Step::add(0, 1, SUCCESSOR)], Err(Rejection::EntryHeld)),
        (&[Step::add(0, 1, SUCCESSOR), Step::add(0, 1, RIVAL)], Err(Rejection::IndexIssued)),
        (&[Step::add(0, 1, SUCCESSOR), Step::add(0, 1, issue(3, 1, 3, 8))], Ok(())),
        (&[Step::add(0, 1, SUCCESSOR), Step::add(0, 1, SUCCESSOR - (1 << 32))], Ok(())),
        (&[Step::add(1, 1, SUCCESSOR)], Err(Rejection::OtherSequencer)),
        (&[Step::add(0, 1, SUCCESSOR), Step::install(1, 1, 0, 0)], Err(Rejection::NoStableIssue)),
        (&[Step::add(0, 1, issue(2, 2, 3, 8))], Err(Rejection::Range)),
        (&[Step::inherit(0, 1, 0, 1)], Err(Rejection::ActingMode)),
        (&[Step::catch_up(0, 1, 0, 1)], Err(Rejection::ActingMode)),
        (&[Step::catch_up(0, 1, 0, 16)], Err(Rejection::Range)),
    ];
    for (steps, answer) in cases {
        assert_eq!(last_of(steps), answer, "{steps:?}");
    }
    assert_eq!(issue(2, 1, 3, 1 << 3 | 1 << 5), SUCCESSOR);
}

#[test]
fn full_history() {
    let mut state = state();
    for take in 1..=56 {
        assert_eq!(state.step(Step::add(0, 1, take)), Ok(()), "take {take}");
    }
    assert_eq!(state.step(Step::add(0, 1, 57)), Err(Rejection::HistoryFull));
    assert_eq!(state.step(Step::add(0, 1, 56)), Err(Rejection::EntryHeld));
    assert_eq!(state.step(Step::add(0, 1, SUCCESSOR)), Err(Rejection::HistoryFull));
}

/// A full history that holds an issue rejects another one for its index as that, and not as full.
#[test]
fn full_history_with_an_issue() {
    let mut state = state();
    assert_eq!(state.step(Step::add(0, 1, SUCCESSOR)), Ok(()));
    for take in 1..=55 {
        assert_eq!(state.step(Step::add(0, 1, take)), Ok(()), "take {take}");
    }
    assert_eq!(state.step(Step::add(0, 1, RIVAL)), Err(Rejection::IndexIssued));
    assert_eq!(state.step(Step::add(0, 1, SUCCESSOR)), Err(Rejection::EntryHeld));
    assert_eq!(state.step(Step::add(0, 1, issue(3, 1, 3, 8))), Err(Rejection::HistoryFull));
}

/// Index 2 of shard 1 can be installed as soon as a box of index 1 is wedged.
#[test]
fn wedge_before_install() {
    let mut state = state();
    let install = Step::install(1, 1, 1, 0);
    run(&mut state, &[Step::add(0, 1, SUCCESSOR), Step::adopt(0, 1, 1), Step::learn(0, 1, 1, 1)]);
    assert_eq!(state.step(install), Err(Rejection::NotWedged));
    run(&mut state, &[Step::wedge(0, 1, 0), Step::wedge(0, 1, 1)]);
    assert_eq!(state.step(install), Err(Rejection::NotWedged), "only the sequencer's boxes");
    run(&mut state, &[Step::wedge(1, 1, 3), install]);
    assert_eq!(state.step(install), Err(Rejection::NotNextIndex), "once more");
    run(&mut state, &[Step::inherit(1, 2, 5, 3)]);
}

/// One configuration follows another: added, adopted, learned, wedged, installed, inherited.
#[test]
fn reconfiguration() {
    let mut state = state();
    let accepted = [
        Step::add(0, 1, SUCCESSOR),
        Step::adopt(0, 1, 1),
        Step::learn(0, 1, 1, 1),
        Step::add(1, 1, 300),
        Step::wedge(1, 1, 3),
        Step::install(1, 1, 1, 0),
    ];
    run(&mut state, &accepted);
    let inherit = Step::inherit(1, 2, 3, 2);
    assert_eq!(state.step(inherit), Err(Rejection::OtherMode), "an active source");
    assert_eq!(state.step(Step::adopt(1, 2, 5)), Err(Rejection::ActingMode), "a pending heir");
    assert_eq!(state.step(Step::wedge(1, 1, 2)), Ok(()));
    assert_eq!(state.step(Step::inherit(1, 2, 5, 2)), Ok(()));
    assert_eq!(state.step(Step::adopt(1, 2, 5)), Err(Rejection::OtherMode), "a pending orderer");
    assert_eq!(state.step(Step::learn(1, 2, 5, 1)), Err(Rejection::NotAlike), "a pending member");
    assert_eq!(state.step(inherit), Ok(()));
    assert_eq!(state.step(Step::learn(1, 2, 5, 1)), Ok(()));
    assert_eq!(state.stable_history(0), Ok(vec![SUCCESSOR]));
    assert_eq!(state.stable_history(1), Ok(vec![300]));
    assert_eq!(state.stable_history(2), Err(Rejection::Range));
    let view = View::new(state.words());
    assert_eq!((view.installed(1), view.orderer(1, 2)), (2, 3));
}

/// A new box reaches a colleague before any frozen box: it gets its list, and where the list came from.
#[test]
fn box_that_catches_up() {
    let mut state = state();
    let seat = |index, host| Seat { shard: 1, index, host };
    run(&mut state, &[Step::add(1, 1, 12), Step::adopt(1, 1, 3), Step::learn(1, 1, 2, 1)]);
    run(&mut state, &[Step::add(0, 1, SUCCESSOR), Step::adopt(0, 1, 1), Step::learn(0, 1, 1, 1)]);
    run(&mut state, &[Step::wedge(1, 1, 2), Step::install(1, 1, 1, 0)]);
    let catch_up = Step::catch_up(1, 2, 5, 3);
    assert_eq!(state.step(catch_up), Err(Rejection::OtherMode), "a pending colleague");
    assert_eq!(state.step(Step::inherit(1, 2, 3, 2)), Ok(()));
    assert_eq!(state.step(Step::catch_up(1, 3, 5, 3)), Err(Rejection::NotInstalled));
    assert_eq!(state.step(Step::catch_up(1, 2, 2, 3)), Err(Rejection::NoMember));
    assert_eq!(state.step(Step::catch_up(1, 2, 3, 3)), Err(Rejection::ActingMode));
    assert_eq!(state.step(Step::catch_up(1, 2, 5, 2)), Err(Rejection::OtherMode), "no member");
    assert_eq!(state.step(Step::catch_up(1, 2, 5, 5)), Err(Rejection::OtherMode), "itself");
    assert_eq!(state.step(catch_up), Ok(()));
    assert_eq!(state.step(catch_up), Err(Rejection::ActingMode), "once more");
    assert_eq!(state.stable_prefix(seat(2, 5)), Ok(vec![12]));
    assert_eq!(state.trace(seat(2, 5)), Ok(vec![2]), "as its colleague");
    run(&mut state, &[Step::add(1, 2, 13), Step::adopt(1, 2, 5), Step::learn(1, 2, 5, 2)]);
    assert_eq!(state.stable_history(1), Ok(vec![12, 13]));
}

#[test]
fn owned_and_borrowed_words() {
    let mut words = vec![5; state_words(2).expect("two shards")];
    let mut borrowed = State::from_words(words.as_mut_slice());
    assert_eq!(borrowed.step(Step::add(0, 1, 7)), Err(Rejection::NotWellFormed));
    assert_eq!(borrowed.reset(&PLAN[..3]), Err(Rejection::Plan));
    assert_eq!(borrowed.reset(&PLAN), Ok(()));
    assert_eq!(borrowed.step(Step::add(0, 1, 7)), Ok(()));
    let mut owned = state();
    assert_ne!(borrowed.words(), owned.words());
    assert_eq!(owned.step(Step::add(0, 1, 7)), Ok(()));
    assert_eq!(borrowed.words(), owned.words());
    owned.words_mut()[0] = 0;
    assert_eq!(owned.replay(&[], 0), Err(Rejection::NotWellFormed));
    let mut short = owned.into_words();
    short.pop();
    assert_eq!(State::from_words(short).replay(&[], 0), Err(Rejection::StateLength));
    assert_eq!(State::setup(&[]), Err(Rejection::StateLength));
    assert_eq!((state_words(1), state_words(8), state_words(9)), (None, Some(16_896), None));
}

#[test]
fn stable_histories_into_a_buffer() {
    let mut state = state();
    run(&mut state, &[Step::add(0, 1, 7), Step::adopt(0, 1, 1), Step::learn(0, 1, 1, 1)]);
    let mut out = [9; 3];
    assert_eq!(state.stable_history_into(0, &mut []), Err(Rejection::OutputShort));
    assert_eq!(state.stable_history_into(0, &mut out), Ok(1));
    assert_eq!(out, [7, 9, 9]);
    assert_eq!(state.stable_history_into(1, &mut []), Ok(0));
}

/// A box is read, drops out and is replaced; of what it and its successors show one begins the other.
#[test]
fn boxes_show_one_list() {
    let mut state = state();
    let seat = |index, host| Seat { shard: 1, index, host };
    run(&mut state, &[Step::add(1, 1, 12), Step::adopt(1, 1, 3), Step::learn(1, 1, 3, 1)]);
    let balcony = state.stable_prefix(seat(1, 3));
    assert_eq!(balcony, Ok(vec![12]));
    assert_eq!(state.stable_prefix(seat(1, 2)), Ok(vec![]), "box 2 has not confirmed yet");
    run(&mut state, &[Step::add(0, 1, SUCCESSOR), Step::adopt(0, 1, 1), Step::learn(0, 1, 1, 1)]);
    run(&mut state, &[Step::wedge(1, 1, 2), Step::wedge(1, 1, 3), Step::install(1, 1, 1, 0)]);
    assert_eq!(state.stable_prefix(seat(2, 5)), Ok(vec![]), "a pending box shows nothing");
    run(&mut state, &[Step::inherit(1, 2, 3, 2), Step::inherit(1, 2, 5, 3)]);
    run(&mut state, &[Step::add(1, 2, 13), Step::adopt(1, 2, 5), Step::learn(1, 2, 5, 2)]);
    assert_eq!(state.stable_prefix(seat(2, 5)), Ok(vec![12, 13]));
    assert_eq!(state.stable_prefix(seat(1, 3)), balcony, "what was shown stays");
    assert_eq!(state.stable_prefix(seat(3, 5)), Err(Rejection::NotInstalled));
    assert_eq!(state.stable_prefix(seat(2, 2)), Err(Rejection::NoMember));
    assert_eq!(state.stable_prefix(seat(9, 2)), Err(Rejection::Range));
    assert_eq!(state.stable_prefix_into(seat(2, 5), &mut [0]), Err(Rejection::OutputShort));
}

/// Support staff see from which box each seat began, over two changes of boxes.
#[test]
fn boxes_and_where_they_began() {
    let mut state = state();
    let seat = |index, host| Seat { shard: 1, index, host };
    let last = issue(3, 1, 7, 1 << 7);
    run(&mut state, &[Step::add(0, 1, SUCCESSOR), Step::add(0, 1, last), Step::adopt(0, 1, 1)]);
    run(&mut state, &[Step::learn(0, 1, 1, 2), Step::wedge(1, 1, 2), Step::wedge(1, 1, 3)]);
    run(&mut state, &[Step::install(1, 1, 1, 0)]);
    assert_eq!(state.trace(seat(1, 2)), Ok(vec![]), "index 1");
    assert_eq!(state.trace(seat(2, 5)), Ok(vec![]), "a pending seat");
    run(&mut state, &[Step::inherit(1, 2, 3, 3), Step::inherit(1, 2, 5, 2), Step::adopt(1, 2, 5)]);
    assert_eq!(state.trace(seat(2, 3)), Ok(vec![3]));
    assert_eq!(state.trace(seat(2, 5)), Ok(vec![2]), "adopt leaves it");
    run(&mut state, &[Step::wedge(1, 2, 5), Step::install(1, 1, 1, 1), Step::inherit(1, 3, 7, 5)]);
    assert_eq!(state.trace(seat(3, 7)), Ok(vec![5, 2]), "nearest first");
    let mut out = [9; 8];
    assert_eq!(state.trace_into(seat(3, 7), &mut out), Ok(2));
    assert_eq!(out, [5, 2, 9, 9, 9, 9, 9, 9]);
    assert_eq!(state.trace_into(seat(3, 7), &mut out[..6]), Err(Rejection::OutputShort));
    assert_eq!(state.trace(seat(4, 7)), Err(Rejection::NotInstalled));
    assert_eq!(state.trace(seat(3, 5)), Err(Rejection::NoMember));
    assert_eq!(state.trace(seat(0, 7)), Err(Rejection::Range));
    state.words_mut()[0] = 0;
    assert_eq!(state.trace(seat(3, 7)), Err(Rejection::NotWellFormed));
    let mut short = state.into_words();
    short.pop();
    assert_eq!(State::from_words(short).trace(seat(3, 7)), Err(Rejection::StateLength));
}

/// The sample of document 01: 26 bytes, six steps, the last rejected.
const SAMPLE: [u8; 26] =
    [1, 0, 1, 7, 2, 0, 1, 1, 3, 0, 1, 0, 1, 3, 0, 1, 1, 1, 4, 0, 1, 0, 1, 0, 1, 8];

#[test]
fn replay_of_the_sample() {
    let report = |stop, tried, rejected, bytes| Report { stop, tried, rejected, bytes };
    let mut replayed = state();
    assert_eq!(replayed.replay(&SAMPLE, 65_535), Ok(report(Stop::Ended, 6, 1, 26)));
    assert_eq!(replayed.stable_history(0), Ok(vec![7]));
    assert_eq!(state().replay(&SAMPLE, 5), Ok(report(Stop::Spent, 5, 0, 22)));
    let damaged = Stop::Damaged(Rejection::BytesEnd);
    assert_eq!(state().replay(&SAMPLE[..25], 65_535), Ok(report(damaged, 5, 0, 22)));
}

/// Support staff see which boxes are turned back: in the sample box 0, which is wedged.
#[test]
fn rejections_by_box() {
    let mut tally = Tally::default();
    let report = state().replay(&SAMPLE, u64::MAX);
    assert_eq!(state().replay_tally(&SAMPLE, u64::MAX, &mut tally), report);
    assert_eq!((tally.of(0), tally.unnamed(), tally.total()), (1, 0, 1));

    let log = [4, 0, 1, 5, 4, 0, 1, 16, 4, 0, 1, 5, 1, 0, 2, 7, 4, 0];
    let report =
        Report { stop: Stop::Damaged(Rejection::BytesEnd), tried: 4, rejected: 4, bytes: 16 };
    let mut replayed = state();
    assert_eq!(replayed.replay_tally(&log, u64::MAX, &mut tally), Ok(report));
    assert_eq!((tally.of(5), tally.unnamed(), tally.total()), (2, 2, 4), "from zero");
    assert_eq!((tally.of(0), tally.of(16)), (0, 0));

    let before = tally;
    replayed.words_mut()[0] = 0;
    let answer = replayed.replay_tally(&log, u64::MAX, &mut tally);
    assert_eq!(answer, Err(Rejection::NotWellFormed));
    let mut short = replayed.into_words();
    short.pop();
    let answer = State::from_words(short).replay_tally(&log, u64::MAX, &mut tally);
    assert_eq!(answer, Err(Rejection::StateLength));
    assert_eq!(tally, before, "untouched");
    assert!(state().replay_tally(&log, 0, &mut tally).is_ok());
    assert_eq!(tally, Tally::default(), "nothing tried");
}

#[test]
fn transcript_of_the_sample() {
    let text = "1 1 0\n2 2 0\n3 3 0\n4 3 0\n5 4 0\n6 1 12\nzone 0 7\nzone 1\nended 6 1 26\n";
    let mut out = [0; 100];
    assert_eq!(transcript(&SAMPLE, &mut out), Ok(text.len()));
    assert_eq!(&out[..text.len()], text.as_bytes());
    assert_eq!(transcript(&SAMPLE, &mut out[..text.len() - 1]), Err(Rejection::OutputShort));
    assert_eq!(transcript(&vec![0; LONGEST_LOG + 1], &mut out), Ok(9));
    assert_eq!(&out[..9], b"too long\n");
}

#[test]
fn codec() {
    assert_eq!(read_step(&[4, 1, 2, 5], 0), Ok(Some((Step::wedge(1, 2, 5), 4))));
    assert_eq!(read_step(&[1, 0, 1, 0xac, 2], 0), Ok(Some((Step::add(0, 1, 300), 5))));
    assert_eq!(read_step(&[7, 1, 2, 5, 3], 0), Ok(Some((Step::catch_up(1, 2, 5, 3), 5))));
    assert_eq!(read_step(&[8, 1, 2, 5, 3], 0), Err(Rejection::KindKept));
    assert_eq!(read_step(&[4, 1, 2, 5], 4), Ok(None));
    assert_eq!(read_step(&[], 9), Ok(None));
    assert_eq!(read_step(&[0x80, 0], 0), Err(Rejection::NumberBytes));
    assert_eq!(read_step(&[0x80], 0), Err(Rejection::BytesEnd));
    let mut out = [9; 7];
    assert_eq!(write_step(&mut out, 1, Step::add(0, 1, 300)), Ok(5));
    assert_eq!(out, [9, 1, 0, 1, 0xac, 2, 9]);
    assert_eq!(write_step(&mut out, 3, Step::add(0, 1, 300)), Err(Rejection::OutputShort));
    assert_eq!(write_step(&mut out, 0, Step::new(31, [0; 4])), Err(Rejection::KindKept));
    assert_eq!(write_step(&mut out, 0, Step::default()), Err(Rejection::KindUnknown));
}

#[test]
fn numbers_of_rejections() {
    for (number, rejection) in (1..).zip(Rejection::ALL) {
        assert_eq!(rejection.number(), number);
        assert_eq!(Rejection::from_number(number), Some(rejection));
    }
    assert_eq!((Rejection::from_number(0), Rejection::from_number(25)), (None, None));
    let text = Rejection::NotWedged.to_string();
    assert_eq!(text, "rejection 24: NotWedged");
}
