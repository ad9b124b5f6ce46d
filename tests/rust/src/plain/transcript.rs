//! The program's whole text.

use super::layout::{SHARD_WORDS, Shard};
use super::setup::setup;
use super::stable::longest_stable;
use super::state::State;
use super::text::{Counter, Text, Writer};
use crate::rejection::{Rejection, number_of};
use crate::report::{Report, Stop};

pub(crate) const LOG_BYTES: usize = 16_384;
/// A step has at least four bytes.
const STEPS: usize = LOG_BYTES / 4;
pub(crate) const BUDGET: u64 = 65_535;
pub(crate) const SHARDS: usize = 2;
/// Sequencer, members and orderer of each shard.
pub(crate) const PLAN: [u64; 3 * SHARDS] = [1, 0b0011, 0, 0, 0b1100, 2];
const TOO_LONG: &[u8] = b"too long\n";

/// No text is longer than this: a line of 10 bytes a step, two stable histories, and the last line.
pub const TEXT_BYTES: usize = 10 * STEPS + SHARDS * (7 + 56 * 11) + 32;

/// Writes the text for a log; gives its length.
pub fn transcript(log: &[u8], out: &mut [u8]) -> Result<usize, Rejection> {
    if log.len() > LOG_BYTES {
        return write_too_long(out);
    }
    let mut words = [0; SHARDS * SHARD_WORDS];
    setup(&mut words, &PLAN)?;
    let mut lines = [Line::default(); STEPS];
    let run = run(&mut words, log, &mut lines)?;
    if out.len() < TEXT_BYTES && out.len() < run.length() {
        return Err(Rejection::OutputShort);
    }
    let mut writer = Writer::new(out);
    run.tell(&mut writer);
    Ok(writer.length())
}

fn write_too_long(out: &mut [u8]) -> Result<usize, Rejection> {
    let out = out.get_mut(..TOO_LONG.len());
    out.ok_or(Rejection::OutputShort)?.copy_from_slice(TOO_LONG);
    Ok(TOO_LONG.len())
}

/// A step's kind and answer.
#[derive(Clone, Copy, Default)]
struct Line {
    kind: u8,
    answer: u8,
}

/// What a run leaves to be told.
struct Run<'a> {
    lines: &'a [Line],
    shards: &'a [Shard],
    report: Report,
}

fn run<'a>(words: &'a mut [u64], log: &[u8], lines: &'a mut [Line]) -> Result<Run<'a>, Rejection> {
    let mut state = State::check(words)?;
    let mut rest = lines.iter_mut();
    let report = state.replay(log, BUDGET, |_, step, answer| {
        if let Some(line) = rest.next() {
            line.kind = step.kind as u8;
            line.answer = number_of(&answer) as u8;
        }
    });
    Ok(Run { lines: &lines[..report.tried as usize], shards: state.shards, report })
}

impl Run<'_> {
    fn length(&self) -> usize {
        let mut counter = Counter::default();
        self.tell(&mut counter);
        counter.0
    }

    fn tell(&self, text: &mut impl Text) {
        for (number, line) in (1..).zip(self.lines) {
            text.number(number);
            text.and(line.kind.into());
            text.and(line.answer.into());
            text.bytes(b"\n");
        }
        tell_shards(self.shards, text);
        tell_last(&self.report, text);
    }
}

/// The lines of the shards.
pub(crate) fn tell_shards(shards: &[Shard], text: &mut impl Text) {
    for (number, shard) in (0..).zip(shards) {
        text.bytes(b"zone");
        text.and(number);
        longest_stable(shard).iter().for_each(|&entry| text.and(entry));
        text.bytes(b"\n");
    }
}

/// The last line.
pub(crate) fn tell_last(report: &Report, text: &mut impl Text) {
    match report.stop {
        Stop::Ended => text.bytes(b"ended"),
        Stop::Spent => text.bytes(b"spent"),
        Stop::Damaged(damage) => {
            text.bytes(b"damaged");
            text.and(damage.number());
        }
    }
    text.and(report.tried);
    text.and(report.rejected);
    text.and(report.bytes);
    text.bytes(b"\n");
}
