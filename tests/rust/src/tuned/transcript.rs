//! The program's whole text.

use super::reader::read_step;
use super::state::State;
use super::text::Writer;
use crate::plain;
use crate::plain::layout::SHARD_WORDS;
use crate::plain::replay::run;
use crate::plain::setup::write_all;
use crate::plain::text::Text;
use crate::plain::transcript::{
    BUDGET, LOG_BYTES, PLAN, SHARDS, TEXT_BYTES, tell_last, tell_shards,
};
use crate::rejection::{Rejection, number_of};

/// Writes the text for a log; gives its length. Where no text is longer than the output, lines are written as steps are tried.
pub fn transcript(log: &[u8], out: &mut [u8]) -> Result<usize, Rejection> {
    if log.len() > LOG_BYTES || out.len() < TEXT_BYTES {
        return plain::transcript(log, out);
    }
    let mut words = [0; SHARDS * SHARD_WORDS];
    let shards = words.as_chunks_mut().0;
    write_all(shards, PLAN.as_chunks().0);
    let mut state = State(plain::State::scanned(shards));
    let mut writer = Writer::new(out);
    let mut number = 0;
    let report = run(log, BUDGET, read_step, |step| {
        let answer = state.step(step);
        number += 1;
        writer.number(number);
        let told = number_of(&answer) as u8;
        let [kind, tens, ones] = [step.kind as u8, told / 10, told % 10].map(|digit| b'0' + digit);
        match told {
            0..10 => writer.bytes(&[b' ', kind, b' ', ones, b'\n']),
            _ => writer.bytes(&[b' ', kind, b' ', tens, ones, b'\n']),
        }
        answer
    });
    tell_shards(state.shards(), &mut writer);
    tell_last(&report, &mut writer);
    Ok(writer.length())
}
