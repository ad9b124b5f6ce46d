//! A step as every implementation takes it.

/// A kind and four numbers, 0 where the kind does not use one. Any values may stand here: steps are judged when tried.
#[derive(Clone, Copy, Debug, Default, PartialEq, Eq, Hash)]
pub struct Step {
    pub kind: u64,
    pub numbers: [u64; 4],
}

/// The kind of a catch-up.
const CATCH_UP: u64 = 7;

impl Step {
    pub const fn new(kind: u64, numbers: [u64; 4]) -> Step {
        Step { kind, numbers }
    }

    /// The entry goes last in the history of the orderer.
    pub const fn add(shard: u64, index: u64, entry: u64) -> Step {
        Step::new(1, [shard, index, entry, 0])
    }

    /// The orderer's history replaces the host's.
    pub const fn adopt(shard: u64, index: u64, host: u64) -> Step {
        Step::new(2, [shard, index, host, 0])
    }

    /// The host learns that so many entries are persistent (document 01: confirm).
    pub const fn learn(shard: u64, index: u64, host: u64, length: u64) -> Step {
        Step::new(3, [shard, index, host, length])
    }

    /// The host's replica becomes immutable.
    pub const fn wedge(shard: u64, index: u64, host: u64) -> Step {
        Step::new(4, [shard, index, host, 0])
    }

    /// The issue at a place of a replica of the shard's sequencer becomes the shard's next configuration. The newest one
    /// has to be wedged first.
    pub const fn install(shard: u64, index: u64, host: u64, place: u64) -> Step {
        Step::new(5, [shard, index, host, place])
    }

    /// The pending replica takes over the history of an immutable one of the configuration before.
    pub const fn inherit(shard: u64, index: u64, host: u64, source: u64) -> Step {
        Step::new(6, [shard, index, host, source])
    }

    /// The pending replica takes over the history of a peer, a replica of its own configuration that is not pending.
    pub const fn catch_up(shard: u64, index: u64, host: u64, peer: u64) -> Step {
        Step::new(CATCH_UP, [shard, index, host, peer])
    }

    pub const fn is_catch_up(self) -> bool {
        self.kind == CATCH_UP
    }
}
