//! Steps from bytes.

use super::kind::Kind;
use super::number::read_number;
use crate::rejection::Rejection;
use crate::step::Step;

/// The step at a position of a log, and the position after it; nothing where no bytes are left.
pub fn read_step(log: &[u8], at: usize) -> Result<Option<(Step, usize)>, Rejection> {
    if at >= log.len() {
        return Ok(None);
    }
    let (kind, mut at) = read_number(log, at)?;
    let mut numbers = [0; 4];
    for number in &mut numbers[..Kind::of(kind)?.used()] {
        (*number, at) = read_number(log, at)?;
    }
    Ok(Some((Step { kind, numbers }, at)))
}
