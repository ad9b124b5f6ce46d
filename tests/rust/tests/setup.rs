//! Setup on random plans, good and bad.

use penkwadar_tests::testing::plans::{hosts, plan};
use penkwadar_tests::testing::random::Random;
use penkwadar_tests::testing::settings;
use penkwadar_tests::testing::sides;
use penkwadar_tests::testing::steps::odd_number;
use penkwadar_tests::testing::triplet::Triplet;
use penkwadar_tests::view::{ACTIVE, SHARD_WORDS};

/// Whether a plan is good, from the sentence in document 01.
fn is_good(plan: &[u64], shards: usize) -> bool {
    let lines: Vec<&[u64]> = plan.chunks(3).collect();
    plan.len() == 3 * shards
        && lines.iter().enumerate().all(|(shard, line)| {
            let alike = lines.iter().filter(|other| other[0] == line[0]).count();
            let hosts = hosts(line[1]);
            line[0] < shards as u64
                && line[0] != shard as u64
                && alike == 1
                && line[1] >> 16 == 0
                && (1..=4).contains(&hosts.len())
                && hosts.contains(&line[2])
        })
}

/// The state that a good plan gives.
fn expected(plan: &[u64]) -> Vec<u64> {
    let mut words = vec![0; plan.len() / 3 * SHARD_WORDS];
    for (block, line) in words.chunks_mut(SHARD_WORDS).zip(plan.chunks(3)) {
        (block[0], block[1], block[2], block[10]) = (line[0], 1, line[1], line[2]);
        for seat in 0..hosts(line[1]).len() {
            block[64 + 64 * seat] = ACTIVE;
        }
    }
    words
}

#[test]
fn random_plans() {
    let mut random = Random::new(settings::seed());
    let (mut good, mut bad) = (0, 0);
    for run in 0..8_000 {
        let shards = 2 + run % 7;
        let mut plan = plan(&mut random, shards as u64);
        for _ in 0..random.below(3) {
            disturb(&mut random, &mut plan);
        }
        let mut state = Triplet::filled(shards * SHARD_WORDS, random.word());
        let answer = sides::setup(&mut state, &plan);
        match is_good(&plan, shards) {
            true => {
                assert_eq!(answer, 0, "{plan:?}");
                assert!(state.get() == expected(&plan), "{plan:?}");
                good += 1;
            }
            false => {
                assert_eq!(answer, 2, "{plan:?}");
                bad += 1;
            }
        }
    }
    println!("{good} good plans, {bad} bad ones");
    assert!(good > 2_000 && bad > 2_000);
}

fn disturb(random: &mut Random, plan: &mut Vec<u64>) {
    if plan.is_empty() {
        return;
    }
    let place = random.place(plan.len());
    match random.below(10) {
        0 => plan.push(odd_number(random)),
        1 => drop(plan.pop()),
        2 => plan[place] ^= 1 << random.below(64),
        3 | 4 => plan[place] = random.below(9),
        5 => plan.truncate(place),
        6 => plan.swap(place, 0),
        _ => plan[place] = odd_number(random),
    }
}

/// The state's length is asked for before the plan is looked at.
#[test]
fn wrong_lengths() {
    let mut random = Random::new(settings::seed() + 1);
    let plan = plan(&mut random, 2);
    for length in [0, 1, 2_111, 2_112, 2_113, 4_223, 4_225, 16_895, 16_897, 9 * 2_112] {
        let mut state = Triplet::filled(length, 5);
        for plan in [&plan[..], &plan[..5], &[]] {
            assert_eq!(sides::setup(&mut state, plan), 1, "{length} words");
        }
    }
}

/// A plan that is good for another number of shards.
#[test]
fn plans_of_another_length() {
    let mut random = Random::new(settings::seed() + 2);
    for shards in 2..=8 {
        let mut state = Triplet::filled(shards as usize * SHARD_WORDS, 5);
        for other in 2..=9 {
            let plan = plan(&mut random, other);
            let answer = if other == shards { 0 } else { 2 };
            assert_eq!(sides::setup(&mut state, &plan), answer, "{other} lines, {shards} shards");
        }
    }
}

#[test]
fn lengths_of_states() {
    for shards in 0..20 {
        let words = if (2..=8).contains(&shards) { shards * 2_112 } else { 0 };
        assert_eq!(sides::state_words(shards), words);
    }
    // Numbers whose products wrap.
    for shards in [1 << 32, 1 << 63, u64::MAX, u64::MAX / 2_112 + 3, (1 << 59) + 2] {
        assert_eq!(sides::state_words(shards), 0);
    }
}
