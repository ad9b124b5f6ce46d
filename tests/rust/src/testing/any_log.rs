//! Random logs.

use super::logs::{is_writable, push_step};
use super::random::Random;
use super::steps::any_step;
use super::temper::Temper;
use crate::plain;
use crate::view::View;

/// A log of about so many steps that mostly can be accepted one after the other, as the temper inclines to. The words hold
/// a well-formed state.
pub fn any_log(random: &mut Random, words: &[u64], temper: &Temper, steps: u64) -> Vec<u8> {
    let mut words = words.to_vec();
    let mut state = plain::State::check(&mut words).expect("a well-formed state");
    let mut log = Vec::new();
    for _ in 0..steps {
        let step = any_step(random, View::new(state.words()), temper);
        if is_writable(step) {
            // An answer is no matter here: the state only leads to the next step.
            let _ = state.step(step);
            push_step(&mut log, step);
        }
    }
    log
}
