//! Logs, written here once more so that the writers can be compared with it.

use std::ops::RangeInclusive;

use super::random::Random;
use crate::step::Step;

/// The kinds of steps.
pub const KINDS: RangeInclusive<u64> = 1..=7;

/// How many of its numbers a kind uses.
pub fn used(kind: u64) -> usize {
    match kind {
        1 | 2 | 4 => 3,
        3 | 5 | 6 | 7 => 4,
        _ => 0,
    }
}

/// Puts a number's groups of seven bits, lowest first.
pub fn push_number(log: &mut Vec<u8>, number: u64) {
    let mut rest = number;
    loop {
        let group = (rest & 0x7f) as u8;
        rest >>= 7;
        if rest == 0 {
            log.push(group);
            return;
        }
        log.push(group | 0x80);
    }
}

/// Puts a step's bytes, whatever its numbers are.
pub fn push_step(log: &mut Vec<u8>, step: Step) {
    push_number(log, step.kind);
    for &number in &step.numbers[..used(step.kind)] {
        push_number(log, number);
    }
}

/// Whether a step can stand in a log.
pub fn is_writable(step: Step) -> bool {
    let (used, unused) = step.numbers.split_at(used(step.kind));
    KINDS.contains(&step.kind)
        && used.iter().all(|&number| number < 1 << 35)
        && unused.iter().all(|&number| number == 0)
}

/// A step that can stand in a log, with numbers of mixed widths.
pub fn writable_step(random: &mut Random) -> Step {
    let kind = random.within(KINDS);
    let mut step = Step::new(kind, [0; 4]);
    for number in &mut step.numbers[..used(kind)] {
        *number = random.word() >> 29 >> random.below(35);
    }
    step
}

/// Changes, takes away or puts in a few bytes.
pub fn spoil(random: &mut Random, log: &mut Vec<u8>) {
    if log.is_empty() {
        return;
    }
    let at = random.place(log.len());
    match random.below(6) {
        0 => log.truncate(at),
        1 => log[at] ^= 1 << random.below(8),
        2 => log[at] = random.word() as u8,
        3 => drop(log.splice(at..at, [0x80, 0x00])),
        4 => drop(log.splice(at..at, [0xff; 5])),
        _ => log.insert(at, random.below(40) as u8),
    }
}
