//! The program's text.

use super::answer::result;
use super::ffi;
use crate::rejection::Rejection;

/// Bytes of the longest log that the program runs; the text of a longer one is `too long`.
pub const LONGEST_LOG: usize = 16_384;

/// Writes the program's text for a log to the start of `out` and gives its length.
pub fn transcript(log: &[u8], out: &mut [u8]) -> Result<usize, Rejection> {
    let mut count = [0];
    result(ffi::transcript(log, out, &mut count))?;
    Ok(count[0] as usize)
}
