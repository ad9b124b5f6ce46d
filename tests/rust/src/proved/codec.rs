//! Steps from and to bytes.

use super::answer::result;
use super::ffi;
use crate::rejection::Rejection;
use crate::step::Step;

/// The step at a position of a log, and the position after it; `None` where no bytes are left.
pub fn read_step(log: &[u8], at: usize) -> Result<Option<(Step, usize)>, Rejection> {
    let mut words = [0; 6];
    result(ffi::read_step(log, at, &mut words))?;
    let [kind, a, b, c, d, after] = words;
    let step = Step::new(kind, [a, b, c, d]);
    Ok((kind != 0).then_some((step, after as usize)))
}

/// Writes a step's bytes at a position of `out`; gives how many they are.
pub fn write_step(out: &mut [u8], at: usize, step: Step) -> Result<usize, Rejection> {
    let mut count = [0];
    result(ffi::write_step(out, at, step, &mut count))?;
    Ok(count[0] as usize)
}
