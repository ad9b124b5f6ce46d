//! Calls of all three implementations. Each compares the answers and every element of every buffer, and gives the answer.

use std::fmt::Debug;

use super::triplet::{Element, SIDES, Triplet};
use crate::interface::{Interface, Plain, Proved, Tuned};
use crate::seat::Seat;
use crate::step::Step;
use crate::tally::TALLY_WORDS;

/// What an output holds before a call.
const UNWRITTEN: u64 = 0xdead_beef_dead_beef;

/// A call of each side, in their order.
macro_rules! each {
    (|$($lent:ident),*| $call:ident($($argument:expr),*)) => {
        [
            &|$($lent),*| Plain::$call($($argument),*),
            &|$($lent),*| Tuned::$call($($argument),*),
            &|$($lent),*| Proved::$call($($argument),*),
        ]
    };
}

/// Makes a call on every side, named by its number; the answers are one.
fn alike(call: &dyn Debug, make: impl FnMut(usize) -> u64) -> u64 {
    let answers: [u64; SIDES.len()] = std::array::from_fn(make);
    let [plain, ..] = answers;
    assert_eq!(answers, [plain; SIDES.len()], "answers of {SIDES:?} to {call:?}");
    plain
}

pub fn state_words(shards: u64) -> u64 {
    let sides: [fn(u64) -> u64; 3] = [Plain::state_words, Tuned::state_words, Proved::state_words];
    alike(&("state_words", shards), |side| sides[side](shards))
}

/// A call that changes a state and writes nothing else.
fn changing(
    state: &mut Triplet<u64>,
    call: &dyn Debug,
    sides: [&dyn Fn(&mut [u64]) -> u64; 3],
) -> u64 {
    let answer = alike(call, |side| sides[side](state.lent(side)));
    state.settle(answer != 0, call);
    answer
}

pub fn setup(state: &mut Triplet<u64>, plan: &[u64]) -> u64 {
    changing(state, &("setup", plan), each!(|state| setup(state, plan)))
}

pub fn step(state: &mut Triplet<u64>, step: Step) -> u64 {
    changing(state, &step, each!(|state| step(state, step)))
}

/// How a replay went.
#[derive(Clone, Copy, Debug, PartialEq, Eq)]
pub struct Replayed {
    /// 0, a rejection, or where it was damaged the number of the damage.
    pub answer: u64,
    /// How it stopped, steps tried, those rejected, bytes read; nothing where it was rejected.
    pub report: Option<[u64; 4]>,
}

pub fn replay(state: &mut Triplet<u64>, log: &[u8], budget: u64) -> Replayed {
    replay_into(state, log, budget, 5)
}

/// A replay whose report has so many words.
pub fn replay_into(
    state: &mut Triplet<u64>,
    log: &[u8],
    budget: u64,
    report_len: usize,
) -> Replayed {
    replaying(
        state,
        report_len,
        &mut Triplet::filled(0, UNWRITTEN),
        &("replay", log, budget, report_len),
        each!(|state, report, _tally| replay(state, log, budget, report)),
    )
}

/// A call that changes a state and writes a report of so many words, and a tally.
fn replaying(
    state: &mut Triplet<u64>,
    report_len: usize,
    tally: &mut Triplet<u64>,
    call: &dyn Debug,
    sides: [&dyn Fn(&mut [u64], &mut [u64], &mut [u64]) -> u64; 3],
) -> Replayed {
    let mut report = Triplet::filled(report_len, UNWRITTEN);
    let answer =
        alike(call, |side| sides[side](state.lent(side), report.lent(side), tally.lent(side)));
    let rejected = matches!(answer, 1 | 8 | 9);
    for buffer in [state, &mut report, tally] {
        buffer.settle(rejected, call);
    }
    let written = report.get().first_chunk().copied();
    Replayed { answer, report: written.filter(|_| !rejected) }
}

/// How a replay with a tally went.
#[derive(Clone, Copy, Debug, PartialEq, Eq)]
pub struct Tallied {
    pub replayed: Replayed,
    /// Nothing where it was rejected.
    pub tally: Option<[u64; TALLY_WORDS]>,
}

pub fn replay_tally(state: &mut Triplet<u64>, log: &[u8], budget: u64) -> Tallied {
    replay_tally_into(state, log, budget, [5, TALLY_WORDS + 1])
}

/// A replay whose report and tally have so many words. The counts sum to the steps rejected, and words past them stay.
pub fn replay_tally_into(
    state: &mut Triplet<u64>,
    log: &[u8],
    budget: u64,
    [report_len, tally_len]: [usize; 2],
) -> Tallied {
    let call = ("replay_tally", log, budget, report_len, tally_len);
    let mut tally = Triplet::filled(tally_len, UNWRITTEN);
    let replayed = replaying(
        state,
        report_len,
        &mut tally,
        &call,
        each!(|state, report, tally| replay_tally(state, log, budget, report, tally)),
    );
    let written = replayed.report.map(|[_, _, rejected, _]| {
        let (counts, rest) = tally.get().split_first_chunk().expect("the words of a tally");
        assert_eq!(counts.iter().sum::<u64>(), rejected, "sum of the tally of {call:?}");
        assert!(rest.iter().all(|&word| word == UNWRITTEN), "written past the tally of {call:?}");
        *counts
    });
    Tallied { replayed, tally: written }
}

/// A read: the six words where there was a step or the end.
pub fn read_step(log: &[u8], at: usize) -> Result<[u64; 6], u64> {
    read_step_into(log, at, 7)
}

/// A read whose output has so many words.
pub fn read_step_into(log: &[u8], at: usize, step_len: usize) -> Result<[u64; 6], u64> {
    let call = ("read_step", log, at, step_len);
    let mut words = Triplet::filled(step_len, UNWRITTEN);
    match changing(&mut words, &call, each!(|words| read_step(log, at, words))) {
        0 => Ok(*words.get().first_chunk().expect("six words")),
        rejection => Err(rejection),
    }
}

/// A call that writes to `out` and counts in the first of `count_len` words.
fn counted<T: Element>(
    out: &mut Triplet<T>,
    count_len: usize,
    call: &dyn Debug,
    mut make: impl FnMut(usize, &mut [T], &mut [u64]) -> u64,
) -> Result<usize, u64> {
    let mut count = Triplet::filled(count_len, UNWRITTEN);
    let answer = alike(call, |side| make(side, out.lent(side), count.lent(side)));
    out.settle(answer != 0, call);
    count.settle(answer != 0, call);
    match answer {
        0 => Ok(count.get()[0] as usize),
        rejection => Err(rejection),
    }
}

/// A call of a side that writes to an output and counts.
type Writing<'a, T> = &'a dyn Fn(&mut [T], &mut [u64]) -> u64;

/// A write: the count of bytes, or the rejection.
pub fn write_step(
    out: &mut Triplet<u8>,
    at: usize,
    step: Step,
    count_len: usize,
) -> Result<usize, u64> {
    let call = ("write_step", out.get().len(), at, step, count_len);
    let sides: [Writing<u8>; 3] = each!(|out, count| write_step(out, at, step, count));
    counted(out, count_len, &call, |side, out, count| sides[side](out, count))
}

/// A call of a side that only reads a state, writes to an output and counts.
type Reading<'a, T> = &'a dyn Fn(&[u64], &mut [T], &mut [u64]) -> u64;

/// Makes such a call. The state is compared as well.
fn reading<T: Element>(
    state: &mut Triplet<u64>,
    out: &mut Triplet<T>,
    count_len: usize,
    call: &dyn Debug,
    sides: [Reading<T>; 3],
) -> Result<usize, u64> {
    let answer =
        counted(out, count_len, call, |side, out, count| sides[side](state.lent(side), out, count));
    state.settle(true, call);
    answer
}

/// The count of entries copied, or the rejection.
pub fn stable_history(
    state: &mut Triplet<u64>,
    shard: u64,
    out: &mut Triplet<u64>,
    count_len: usize,
) -> Result<usize, u64> {
    let call = ("stable_history", shard, out.get().len(), count_len);
    let sides: [Reading<u64>; 3] =
        each!(|state, out, count| stable_history(state, shard, out, count));
    reading(state, out, count_len, &call, sides)
}

/// The count of entries copied, or the rejection.
pub fn stable_prefix(
    state: &mut Triplet<u64>,
    seat: Seat,
    out: &mut Triplet<u64>,
    count_len: usize,
) -> Result<usize, u64> {
    let call = ("stable_prefix", seat, out.get().len(), count_len);
    let sides: [Reading<u64>; 3] =
        each!(|state, out, count| stable_prefix(state, seat, out, count));
    reading(state, out, count_len, &call, sides)
}

/// The count of hosts written, or the rejection.
pub fn trace(
    state: &mut Triplet<u64>,
    seat: Seat,
    out: &mut Triplet<u64>,
    count_len: usize,
) -> Result<usize, u64> {
    let call = ("trace", seat, out.get().len(), count_len);
    let sides: [Reading<u64>; 3] = each!(|state, out, count| trace(state, seat, out, count));
    reading(state, out, count_len, &call, sides)
}

/// The length of the text for spreadsheets, or the rejection.
pub fn csv(
    state: &mut Triplet<u64>,
    out: &mut Triplet<u8>,
    count_len: usize,
) -> Result<usize, u64> {
    let call = ("csv", out.get().len(), count_len);
    reading(state, out, count_len, &call, each!(|state, out, count| csv(state, out, count)))
}

/// The length of the text, or the rejection.
pub fn transcript(log: &[u8], out: &mut Triplet<u8>, count_len: usize) -> Result<usize, u64> {
    let call = ("transcript", log.len(), out.get().len(), count_len);
    let sides: [Writing<u8>; 3] = each!(|out, count| transcript(log, out, count));
    counted(out, count_len, &call, |side, out, count| sides[side](out, count))
}
