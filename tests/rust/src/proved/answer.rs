//! The header's numbers as Rust's values.

use crate::rejection::Rejection;
use crate::report::{Report, Stop};

/// The `Result` of an answer's number. The header gives no number above 24.
pub fn result(answer: u64) -> Result<(), Rejection> {
    match answer {
        0 => Ok(()),
        number => Err(rejection(number)),
    }
}

/// The result of a replay: damage is told by the report and is no rejection.
pub fn replayed(
    answer: u64,
    [stop, tried, rejected, bytes]: [u64; 4],
) -> Result<Report, Rejection> {
    let stop = match (answer, stop) {
        (0, 0) => Stop::Ended,
        (0, 1) => Stop::Spent,
        (damage @ 3..=6, 2) => Stop::Damaged(rejection(damage)),
        (number, _) => return Err(rejection(number)),
    };
    Ok(Report { stop, tried, rejected, bytes })
}

fn rejection(number: u64) -> Rejection {
    Rejection::from_number(number).unwrap_or_else(|| panic!("{number} is no answer of the header"))
}
