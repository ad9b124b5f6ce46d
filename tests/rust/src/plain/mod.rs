//! Documents 01 and 02 in plain Rust: the implementation that the proved one is compared with and measured against.
//!
//! Nothing here allocates, and nothing panics for any input.

mod add;
mod adopt;
mod beginning;
mod catch_up;
pub(crate) mod configuration;
pub(crate) mod csv;
pub(crate) mod entry;
mod inherit;
mod install;
pub(crate) mod kind;
pub(crate) mod layout;
mod learn;
mod number;
mod range;
mod reader;
pub(crate) mod replay;
mod seats;
pub(crate) mod setup;
pub(crate) mod stable;
mod state;
mod step;
mod tally;
pub(crate) mod text;
pub(crate) mod trace;
pub(crate) mod transcript;
mod wedge;
pub(crate) mod wellformed;
mod writer;

pub use csv::csv;
pub use layout::{HISTORY, SHARD_WORDS, state_words};
pub use reader::read_step;
pub use replay::replay;
pub use setup::setup;
pub use stable::{stable_history, stable_prefix};
pub use state::State;
pub use step::step;
pub use tally::replay_tally;
pub use trace::trace;
pub use transcript::{TEXT_BYTES, transcript};
pub use writer::write_step;
