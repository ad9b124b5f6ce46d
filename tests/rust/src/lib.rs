//! Rust beside the proved machine: safe wrappers of it ([`proved`]), an independent implementation of the same
//! requirements ([`plain`]), the same tuned where it is hot ([`tuned`]), a checker of the claims made of every run
//! ([`claims`]), and what the tests and the benchmark need to compare them ([`interface`], [`testing`]).

pub mod bench;
pub mod claims;
pub mod interface;
pub mod plain;
pub mod proved;
pub mod rejection;
pub mod report;
pub mod seat;
pub mod step;
pub mod tally;
pub mod testing;
pub mod tuned;
pub mod view;
