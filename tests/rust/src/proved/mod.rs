//! The proved machine in Rust's habits.
//!
//! A [`State`] owns its words or borrows them, answers are `Result`s with a [`Rejection`], and logs are byte slices.
//! The functions of the C header over slices, with their numbers, stand in [`ffi`].

mod answer;
mod codec;
pub mod ffi;
mod state;
mod transcript;

pub use crate::rejection::Rejection;
pub use crate::report::{Report, Stop};
pub use crate::seat::Seat;
pub use crate::step::Step;
pub use crate::tally::Tally;
pub use codec::{read_step, write_step};
pub use state::{CSV_BYTES, State, TRACE_HOSTS, state_words};
pub use transcript::{LONGEST_LOG, transcript};
