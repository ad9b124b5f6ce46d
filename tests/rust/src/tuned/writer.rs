//! Steps to bytes.

use crate::plain;
use crate::plain::kind::Kind;
use crate::rejection::Rejection;
use crate::step::Step;

/// Writes a step's bytes at a position of `out`; gives how many they are.
#[inline]
pub fn write_step(out: &mut [u8], at: usize, step: Step) -> Result<usize, Rejection> {
    match write_short(out, at, step) {
        Some(length) => Ok(length),
        None => plain::write_step(out, at, step),
    }
}

/// The same where each number takes one byte, and the output has room for five.
#[inline]
fn write_short(out: &mut [u8], at: usize, step: Step) -> Option<usize> {
    let [a, b, c, d] = step.numbers;
    if a | b | c | d >= 0x80 {
        return None;
    }
    let used = Kind::of(step.kind).ok()?.used();
    if used < 4 && d != 0 {
        return None;
    }
    let out: &mut [u8; 5] = out.get_mut(at..)?.first_chunk_mut()?;
    let bytes = (step.kind | a << 8 | b << 16 | c << 24) as u32;
    out[..4].copy_from_slice(&bytes.to_le_bytes());
    if used == 4 {
        out[4] = d as u8;
    }
    Some(1 + used)
}
