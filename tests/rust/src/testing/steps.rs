//! Random steps.

use super::likely::likely;
use super::logs::KINDS;
use super::plans::configuration;
use super::random::Random;
use super::temper::Temper;
use crate::step::Step;
use crate::view::{View, issue};

/// A step of any sort, as the temper inclines to. The view is of a well-formed state.
pub fn any_step(random: &mut Random, view: View, temper: &Temper) -> Step {
    if random.chance(temper.arbitrary) {
        return arbitrary(random);
    }
    let mut step = likely(random, view, temper);
    if random.chance(temper.disturbed) {
        disturb(random, &mut step);
    }
    step
}

/// A step with any kind and numbers.
pub fn arbitrary(random: &mut Random) -> Step {
    let kind = match random.chance(80) {
        true => random.within(KINDS),
        false => odd_number(random),
    };
    let mut numbers = [odd_number(random), odd_number(random), odd_number(random), 0];
    if random.chance(50) {
        numbers[0] = random.below(3);
        numbers[1] = random.within(1..=3);
    }
    if kind == 1 && random.chance(50) {
        numbers[2] = odd_issue(random);
    }
    if random.chance(40) {
        numbers[3] = odd_number(random);
    }
    Step { kind, numbers }
}

/// An issue with each of its parts in range or just out of it.
pub fn odd_issue(random: &mut Random) -> u64 {
    let (mut members, mut orderer) = configuration(random);
    if random.chance(30) {
        let other = members ^ 1 << random.below(16);
        members = random.pick(&[0, 0b1_1111, 1 << 15, other]);
    }
    if random.chance(20) {
        orderer = random.below(16);
    }
    issue(random.within(1..=9), random.below(10), orderer, members)
}

/// Changes one number, often by one.
fn disturb(random: &mut Random, step: &mut Step) {
    let place = random.place(5);
    let number = match place {
        4 => &mut step.kind,
        place => &mut step.numbers[place],
    };
    *number = match random.below(4) {
        0 => number.wrapping_add(1),
        1 => number.wrapping_sub(1),
        2 => *number ^ (1 << random.below(40)),
        _ => odd_number(random),
    };
}

/// Numbers at which rules change, and any others.
pub fn odd_number(random: &mut Random) -> u64 {
    const EDGES: [u64; 22] = [
        0,
        1,
        2,
        7,
        8,
        9,
        15,
        16,
        31,
        32,
        55,
        56,
        57,
        127,
        128,
        (1 << 32) - 1,
        1 << 32,
        (1 << 35) - 1,
        1 << 35,
        1 << 63,
        u64::MAX - 1,
        u64::MAX,
    ];
    match random.below(4) {
        0 => random.below(5),
        1 => random.below(64),
        2 => random.pick(&EDGES),
        _ => random.any_width(),
    }
}
