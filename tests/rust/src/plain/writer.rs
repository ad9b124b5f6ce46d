//! Steps to bytes.

use super::kind::Kind;
use super::number::{NUMBER_BYTES, is_writable, write_number};
use crate::rejection::Rejection;
use crate::step::Step;

/// Bytes of a step at most.
const STEP_BYTES: usize = 5 * NUMBER_BYTES;

/// Writes a step's bytes at a position of `out`; gives how many they are.
pub fn write_step(out: &mut [u8], at: usize, step: Step) -> Result<usize, Rejection> {
    let (used, unused) = step.numbers.split_at(Kind::of(step.kind)?.used());
    let all_bits = step.numbers.iter().fold(0, |bits, number| bits | number);
    if !is_writable(all_bits) || unused.iter().any(|&number| number != 0) {
        return Err(Rejection::Range);
    }
    let out = out.get_mut(at..).ok_or(Rejection::OutputShort)?;
    if let Some(out) = out.first_chunk_mut() {
        return Ok(write(out, step.kind, used));
    }
    // There may be too little room, and then nothing is written.
    let mut bytes = [0; STEP_BYTES];
    let length = write(&mut bytes, step.kind, used);
    out.get_mut(..length).ok_or(Rejection::OutputShort)?.copy_from_slice(&bytes[..length]);
    Ok(length)
}

fn write(out: &mut [u8; STEP_BYTES], kind: u64, numbers: &[u64]) -> usize {
    let at = write_number(out, 0, kind);
    numbers.iter().fold(at, |at, &number| write_number(out, at, number))
}
