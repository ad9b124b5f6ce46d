//! Numbers of a log: groups of seven bits, lowest first, the top bit on all bytes but the last.

use crate::rejection::Rejection;

/// Bytes of a number at most.
pub const NUMBER_BYTES: usize = 5;

/// Whether a number can be written.
pub fn is_writable(number: u64) -> bool {
    number >> (7 * NUMBER_BYTES) == 0
}

/// The number at a position that is not past the bytes, and the position after it.
pub fn read_number(log: &[u8], at: usize) -> Result<(u64, usize), Rejection> {
    match log.get(at) {
        // Most numbers have one byte.
        Some(&byte) if byte < 0x80 => Ok((byte.into(), at + 1)),
        _ => read_groups(log, at),
    }
}

fn read_groups(log: &[u8], at: usize) -> Result<(u64, usize), Rejection> {
    let mut number = 0;
    for (k, &byte) in log[at..].iter().take(NUMBER_BYTES).enumerate() {
        number |= u64::from(byte & 0x7f) << (7 * k);
        if byte < 0x80 {
            return match byte == 0 && k > 0 {
                true => Err(Rejection::NumberBytes),
                false => Ok((number, at + k + 1)),
            };
        }
    }
    Err(match log.len() - at < NUMBER_BYTES {
        true => Rejection::BytesEnd,
        false => Rejection::NumberBytes,
    })
}

/// Writes a number at a position that has room for five bytes after it; gives the position after the number.
pub fn write_number(out: &mut [u8], mut at: usize, mut number: u64) -> usize {
    while number >= 0x80 {
        out[at] = number as u8 | 0x80;
        number >>= 7;
        at += 1;
    }
    out[at] = number as u8;
    at + 1
}
