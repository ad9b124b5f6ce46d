//! Steps from bytes.

use crate::plain;
use crate::rejection::Rejection;
use crate::step::Step;

/// Bit `kind` is set where the kind uses four numbers: 3, 5, 6 and 7.
const FOURTHS: u64 = 0b1110_1000;
/// The top bits of the first three and the first five bytes.
const THREE: u64 = 0x80_8080;
const FIVE: u64 = 0x80_8080_8080;
const ADD: u64 = 1;

/// The step at a position of a log, and the position after it; nothing where no bytes are left.
#[inline(always)]
pub fn read_step(log: &[u8], at: usize) -> Result<Option<(Step, usize)>, Rejection> {
    if let Some(bytes) = log.get(at..).and_then(<[u8]>::first_chunk) {
        if let Some((step, length)) = read_word(u64::from_le_bytes(*bytes)) {
            return Ok(Some((step, at + length)));
        }
    }
    read_any(log, at)
}

#[cold]
fn read_any(log: &[u8], at: usize) -> Result<Option<(Step, usize)>, Rejection> {
    plain::read_step(log, at)
}

/// The step in the first of eight bytes and its length, where its numbers have one byte each, or it is an add of a longer
/// entry.
#[inline(always)]
fn read_word(word: u64) -> Option<(Step, usize)> {
    let byte = |k: u32| word >> (8 * k) & 0xff;
    let kind = byte(0);
    if !(1..=7).contains(&kind) {
        return None;
    }
    if word & FIVE == 0 {
        let fourth = FOURTHS >> kind & 1;
        let numbers = [byte(1), byte(2), byte(3), byte(4) * fourth];
        return Some((Step { kind, numbers }, 4 + fourth as usize));
    }
    if word & THREE == 0 && kind == ADD {
        let (entry, length) = read_number(word >> 24)?;
        return Some((Step { kind, numbers: [byte(1), byte(2), entry, 0] }, 3 + length));
    }
    None
}

/// The number in the first of five bytes and its length, without a branch on that.
#[inline(always)]
fn read_number(bytes: u64) -> Option<(u64, usize)> {
    let ends = !bytes & FIVE;
    let bits = ends.trailing_zeros() + 1;
    if ends == 0 {
        return None;
    }
    let bytes = bytes & u64::MAX >> (64 - bits);
    if bytes >> (bits - 8) == 0 && bits > 8 {
        return None;
    }
    let group = |k: u32| (bytes >> (8 * k) & 0x7f) << (7 * k);
    Some((group(0) | group(1) | group(2) | group(3) | group(4), bits as usize / 8))
}
