//! Calls that are rejected, made between those of a run: they change nothing.

use super::coverage::Coverage;
use super::plans::plan;
use super::random::Random;
use super::sides;
use super::steps::{arbitrary, odd_number};
use super::triplet::Triplet;
use crate::view::{SHARD_WORDS, View};

pub fn any(random: &mut Random, coverage: &mut Coverage, state: &mut Triplet<u64>) {
    match random.below(4) {
        0 => bad_plan(random, coverage, state),
        1 => wrong_length(random, coverage, state.get()),
        2 => out_of_form(random, coverage, state.get()),
        _ => short_output(random, coverage),
    }
}

fn bad_plan(random: &mut Random, coverage: &mut Coverage, state: &mut Triplet<u64>) {
    let shards = View::new(state.get()).shards();
    let mut plan = plan(random, shards);
    let shard = random.below(shards);
    let line = shard as usize * 3;
    match random.below(5) {
        0 => drop(plan.pop()),
        1 => plan[line] = shard,
        2 => plan[line] = plan[(line + 3) % plan.len()],
        3 => plan[line + 1] = random.pick(&[0, 0b11111, 1 << 16, 1 << 63, u64::MAX]),
        _ => plan[line + 2] = random.within(16..=u64::MAX - 1),
    }
    let answer = sides::setup(state, &plan);
    assert_eq!(answer, 2, "setup of {plan:?}");
    coverage.answer(answer);
}

fn wrong_length(random: &mut Random, coverage: &mut Coverage, words: &[u64]) {
    let length =
        random.pick(&[0, 1, SHARD_WORDS, words.len() - 1, words.len() + 1, 9 * SHARD_WORDS]);
    let mut contents = words.to_vec();
    contents.resize(length, 0);
    let mut state = Triplet::new(&contents);
    let step = arbitrary(random);
    coverage.answer(sides::step(&mut state, step));
    assert_eq!(sides::step(&mut state, step), 1, "{step:?} on {length} words");
    assert_eq!(sides::replay(&mut state, &[1, 2, 3], 9).answer, 1, "replay on {length} words");
}

fn out_of_form(random: &mut Random, coverage: &mut Coverage, words: &[u64]) {
    let mut state = Triplet::new(words);
    let (place, word) = (random.place(words.len()), odd_number(random));
    state.edit(|words| words[place] = word);
    for _ in 0..4 {
        coverage.answer(sides::step(&mut state, arbitrary(random)));
    }
    coverage.answer(sides::replay(&mut state, &[4, 0, 1, 0], 9).answer);
}

fn short_output(random: &mut Random, coverage: &mut Coverage) {
    let mut out = Triplet::filled(random.place(4), 0xee);
    let answer = sides::write_step(&mut out, random.place(9), arbitrary(random), 1);
    coverage.answer(answer.err().unwrap_or(0));
    assert!(answer.is_err(), "no step fits in three bytes");
}
