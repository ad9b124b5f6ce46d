//! A log run as the single steps that it stands for.

use super::sides::{Replayed, read_step};
use super::tried::{Tried, caps};
use crate::interface::{Interface, Proved};
use crate::step::Step;
use crate::view::View;

/// Tries the steps of a log by calls of their own, tells each with the words that it left, and gives the answer and
/// the report that a replay has to give. The words hold a well-formed state.
pub fn singly(
    words: &mut [u64],
    log: &[u8],
    budget: u64,
    mut tell: impl FnMut(Tried, &[u64]),
) -> Replayed {
    let (mut at, mut tried, mut rejected) = (0, 0, 0);
    let (stop, answer) = loop {
        if at == log.len() {
            break (0, 0);
        }
        if tried == budget {
            break (1, 0);
        }
        let [kind, a, b, c, d, after] = match read_step(log, at) {
            Ok(words) => words,
            Err(damage) => break (2, damage),
        };
        let step = Step::new(kind, [a, b, c, d]);
        let capped = caps(View::new(words), step);
        let answer = Proved::step(words, step);
        tell(Tried { step, answer, capped }, words);
        tried += 1;
        rejected += u64::from(answer != 0);
        at = after as usize;
    };
    Replayed { answer, report: Some([stop, tried, rejected, at as u64]) }
}
