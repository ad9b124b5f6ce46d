//! Steps that are rejected once the shards of the state are counted: all they take is its length.

use std::hint::black_box;

use super::clock::{Case, measure};
use super::table::{SIDES, Table, sides};
use crate::interface::{Interface, Plain};
use crate::plain;
use crate::rejection::Rejection;
use crate::step::Step;
use crate::testing::random::Random;
use crate::view::SHARD_WORDS;

const CALLS: usize = 4_000;
const FEWEST: u64 = 2;
const MOST: u64 = 8;

/// More words than any state has.
const WORDS: usize = (MOST as usize + 1) * SHARD_WORDS;

/// Of a shard that no state has.
const STEP: Step = Step::wedge(MOST, 1, 0);

/// Which length the next state has.
type Source = fn(&mut Random) -> usize;

fn of_shards(shards: u64) -> usize {
    plain::state_words(shards) as usize
}

fn any_of_the_seven(random: &mut Random) -> usize {
    of_shards(random.within(FEWEST..=MOST))
}

/// A length that no state has.
fn any_other(random: &mut Random) -> usize {
    loop {
        let length = random.place(WORDS + 1);
        if (FEWEST..=MOST).all(|shards| of_shards(shards) != length) {
            return length;
        }
    }
}

/// The step on states of one length after the other.
struct Lengths {
    random: Random,
    source: Source,
    lengths: Vec<usize>,
    words: Vec<u64>,
}

impl Case for Lengths {
    fn refresh(&mut self) {
        self.lengths.clear();
        self.lengths.extend((0..CALLS).map(|_| (self.source)(&mut self.random)));
    }

    fn run<I: Interface>(&mut self) -> u64 {
        let (words, step) = (black_box(&mut self.words[..]), black_box(STEP));
        self.lengths.iter().map(|&length| I::step(&mut words[..length], step)).sum()
    }

    fn units(&self) -> usize {
        CALLS
    }
}

impl Lengths {
    /// All steps get this answer.
    fn new(source: Source, answer: Rejection) -> Lengths {
        let mut lengths =
            Lengths { random: Random::new(9), source, lengths: Vec::new(), words: vec![0; WORDS] };
        lengths.refresh();
        assert_eq!(lengths.run::<Plain>(), CALLS as u64 * answer.number(), "{answer}");
        lengths
    }
}

pub fn tables() -> Vec<Table> {
    let mut table = Table::new(
        "## Lengths\n\nSteps that are rejected before a word of the state is read: for the number of the shard (7), or \
         for the length of the state (1); 4,000 calls on lengths drawn afresh each round, in ns a call.",
        &[&["lengths", "answer"], &SIDES[..]].concat(),
    );
    let sources: [(&str, Source, Rejection); 4] = [
        ("2 shards", |_| of_shards(FEWEST), Rejection::Range),
        ("8 shards", |_| of_shards(MOST), Rejection::Range),
        ("any of the seven", any_of_the_seven, Rejection::Range),
        ("any that no state has", any_other, Rejection::StateLength),
    ];
    for (name, source, answer) in sources {
        let times = sides(measure(&mut Lengths::new(source, answer)));
        table.row(&[&[name.to_string(), answer.number().to_string()][..], &times].concat());
    }
    vec![table]
}
