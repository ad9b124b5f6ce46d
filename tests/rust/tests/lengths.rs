//! Lengths of states: just seven numbers are. On any other length every call that takes a state answers 1 and writes
//! nothing; on the seven none does, and each counts the shards right. The plain side divides to count them.

use penkwadar_tests::proved::TRACE_HOSTS;
use penkwadar_tests::rejection::Rejection;
use penkwadar_tests::seat::Seat;
use penkwadar_tests::step::Step;
use penkwadar_tests::testing::logs::push_step;
use penkwadar_tests::testing::sides;
use penkwadar_tests::testing::triplet::Triplet;
use penkwadar_tests::view::SHARD_WORDS;

/// The lengths of states of 2 to 8 shards, written out.
const LENGTHS: [usize; 7] = [4_224, 6_336, 8_448, 10_560, 12_672, 14_784, 16_896];
const FEWEST: u64 = 2;
const TOO_MANY: u64 = 9;

/// Lengths so far apart are alike in their low 16 bits.
const PAST_16_BITS: usize = 65_536;

/// Answers: accepted, and the rejections for a length, a plan, a number out of range, and the form.
const ACCEPTED: u64 = 0;
const LENGTH: u64 = Rejection::StateLength as u64;
const PLAN: u64 = Rejection::Plan as u64;
const RANGE: u64 = Rejection::Range as u64;
const FORM: u64 = Rejection::NotWellFormed as u64;

/// What states and outputs hold before a call; no state of such words is well-formed.
const UNWRITTEN: u64 = 0xeeee_eeee;
const UNWRITTEN_BYTE: u8 = 0xee;

/// The length of a text for spreadsheets without entries.
const HEADER_BYTES: usize = 23;

/// A good plan for so many shards: host 0 alone in each, and a ring of sequencers. Empty for none.
fn plan(shards: u64) -> Vec<u64> {
    (0..shards).flat_map(|shard| [(shard + 1) % shards, 0b1, 0]).collect()
}

/// A step that a state after setup accepts, where it has the shard.
fn add(shard: u64, take: u64) -> Step {
    Step::add(shard, 1, take)
}

/// What the calls answer that take the number of a shard: step, stable_history, stable_prefix, trace.
fn shard_answers(state: &mut Triplet<u64>, shard: u64) -> [u64; 4] {
    let mut out = Triplet::filled(TRACE_HOSTS, UNWRITTEN);
    let seat = Seat { shard, index: 1, host: 0 };
    let added = sides::step(state, add(shard, 1));
    let read = [
        sides::stable_history(state, shard, &mut out, 1),
        sides::stable_prefix(state, seat, &mut out, 1),
        sides::trace(state, seat, &mut out, 1),
    ];
    let [history, prefix, trace] = read.map(|answer| answer.err().unwrap_or(ACCEPTED));
    [added, history, prefix, trace]
}

/// What the others answer, but for setup: replay without and with a tally, csv.
fn state_answers(state: &mut Triplet<u64>) -> [u64; 3] {
    let mut text = Triplet::filled(HEADER_BYTES, UNWRITTEN_BYTE);
    let replayed = sides::replay(state, &[], 0).answer;
    let tallied = sides::replay_tally(state, &[], 0).replayed.answer;
    [replayed, tallied, sides::csv(state, &mut text, 1).err().unwrap_or(ACCEPTED)]
}

/// Replays a step of the last shard and one of a shard more; gives how many it tried and rejected.
fn replay_last_and_more(state: &mut Triplet<u64>, shards: u64) -> [u64; 2] {
    let mut log = Vec::new();
    push_step(&mut log, add(shards - 1, 2));
    push_step(&mut log, add(shards, 2));
    let [_, tried, rejected, _] = sides::replay(state, &log, u64::MAX).report.expect("a report");
    [tried, rejected]
}

/// Makes every call on states of these lengths, the longest first; gives how many of them are among the seven. All
/// calls are rejected, so that the words of all states can stand in one buffer.
fn try_lengths(lengths: &[usize]) -> usize {
    let mut state = Triplet::filled(lengths[0], UNWRITTEN);
    // Plans as long as those for no shards and for nine.
    let plans = [plan(0), plan(TOO_MANY)];
    let mut among = 0;
    for &length in lengths {
        state.shorten(length);
        let (of_setup, of_others) = match LENGTHS.contains(&length) {
            true => (PLAN, FORM),
            false => (LENGTH, LENGTH),
        };
        for plan in &plans {
            assert_eq!(sides::setup(&mut state, plan), of_setup, "setup on {length} words");
        }
        assert_eq!(shard_answers(&mut state, 0), [of_others; 4], "{length} words");
        assert_eq!(state_answers(&mut state), [of_others; 3], "{length} words");
        among += usize::from(of_others != LENGTH);
    }
    among
}

/// Every length up to one word more than nine shards would have.
#[test]
fn every_length() {
    let lengths: Vec<usize> = (0..=TOO_MANY as usize * SHARD_WORDS + 1).rev().collect();
    assert_eq!(try_lengths(&lengths), LENGTHS.len());
}

/// Lengths that have the low 16 bits of one of the seven.
#[test]
fn low_bits_alike() {
    let mut lengths = vec![2 * PAST_16_BITS + LENGTHS[0]];
    lengths.extend(LENGTHS.iter().rev().map(|length| PAST_16_BITS + length));
    assert_eq!(try_lengths(&lengths), 0);
}

/// On each of the seven a good plan has a line for each shard, and numbers of shards are below their count.
#[test]
fn shards_of_each_length() {
    for (shards, length) in (FEWEST..).zip(LENGTHS) {
        let mut state = Triplet::filled(length, UNWRITTEN);
        for other in (0..=TOO_MANY).filter(|&other| other != shards) {
            assert_eq!(sides::setup(&mut state, &plan(other)), PLAN, "{other} of {shards} shards");
        }
        assert_eq!(sides::setup(&mut state, &plan(shards)), ACCEPTED, "{shards} shards");
        assert_eq!(shard_answers(&mut state, shards - 1), [ACCEPTED; 4], "{shards} shards");
        assert_eq!(shard_answers(&mut state, shards), [RANGE; 4], "{shards} shards");
        assert_eq!(state_answers(&mut state), [ACCEPTED; 3], "{shards} shards");
        assert_eq!(replay_last_and_more(&mut state, shards), [2, 1], "{shards} shards");
    }
}

/// The words of a state by its number of shards: the seven, and 0 for every other number.
#[test]
fn words_of_each_count() {
    for shards in 0..=20 {
        let length = (FEWEST..).zip(LENGTHS).find(|&(count, _)| count == shards);
        let words = length.map_or(0, |(_, words)| words as u64);
        assert_eq!(sides::state_words(shards), words, "{shards} shards");
    }
}
