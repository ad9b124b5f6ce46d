//! What the tests and the benchmark share.

pub mod any_log;
mod asides;
pub mod catch_ups;
pub mod coverage;
pub mod driver;
pub mod length_vectors;
mod likely;
pub mod logs;
pub mod next;
pub mod plans;
pub mod random;
pub mod script;
pub mod seats;
pub mod settings;
pub mod sides;
pub mod singly;
pub mod states;
pub mod steps;
pub mod tallies;
pub mod tally_vectors;
pub mod temper;
pub mod tried;
pub mod triplet;
pub mod vectors;
pub mod wrong;
