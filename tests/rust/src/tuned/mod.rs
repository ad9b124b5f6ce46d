//! The same machine in tuned Rust: what an expert makes of the plain implementation where it is hot.
//!
//! Zero words and takes are or-ed without an early exit; a history that begins as the one before it is compared with that
//! one alone, as memory; a step's kind is looked at once, after its numbers; steps are read eight bytes at a time; texts
//! are written without being measured where no text is longer than the output. Everything else is the plain implementation.
//!
//! Like that one it is safe Rust: nothing here allocates, and nothing panics for any input.

mod add;
mod csv;
mod lists;
mod reader;
mod replay;
mod state;
mod step;
mod text;
mod transcript;
mod wellformed;
mod writer;

pub use csv::csv;
pub use lists::{stable_history, stable_prefix, trace};
pub use reader::read_step;
pub use replay::{replay, replay_tally};
pub use step::step;
pub use transcript::transcript;
pub use writer::write_step;

pub use crate::plain::{setup, state_words};
