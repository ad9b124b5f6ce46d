//! Which replica a caller means.

/// A host in a configuration of a shard. The numbers may be anything: those that name no replica are rejected.
#[derive(Clone, Copy, Debug, PartialEq, Eq, Hash)]
pub struct Seat {
    pub shard: u64,
    /// The configuration, counted from 1.
    pub index: u64,
    pub host: u64,
}
