//! What a replay tells.

use crate::rejection::Rejection;

/// How a replay stopped.
#[derive(Clone, Copy, Debug, PartialEq, Eq)]
pub enum Stop {
    /// No bytes left.
    Ended,
    /// As many steps tried as the budget allows.
    Spent,
    /// At bytes that are no step; the rejection is one of 3 to 6.
    Damaged(Rejection),
}

/// How a replay stopped, and its counts.
#[derive(Clone, Copy, Debug, PartialEq, Eq)]
pub struct Report {
    pub stop: Stop,
    /// Steps tried.
    pub tried: u64,
    /// Those of them that were rejected.
    pub rejected: u64,
    /// Bytes of whole steps read.
    pub bytes: u64,
}
