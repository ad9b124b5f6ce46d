//! What a run is inclined to do.

use super::random::Random;

/// Weights and chances of one run.
#[derive(Clone, Debug)]
pub struct Temper {
    /// Of the seven kinds, for steps that are likely to be accepted.
    pub kinds: [u64; 7],
    /// In a hundred: steps with any numbers, and likely steps with one number disturbed.
    pub arbitrary: u64,
    pub disturbed: u64,
    /// In a hundred: adds that are issues.
    pub issues: u64,
    /// In a hundred: issues although one for the same shard and index is there.
    pub rivals: u64,
    /// In a hundred: calls that are log runs.
    pub replays: u64,
}

impl Temper {
    /// A temper that brings configuration after configuration, one that fills histories, or one that breaks rules.
    pub fn any(random: &mut Random) -> Temper {
        match random.below(4) {
            0 | 1 => Temper::elastic(random),
            2 => Temper::filling(random),
            _ => Temper::wild(random),
        }
    }

    fn elastic(random: &mut Random) -> Temper {
        Temper {
            kinds: [10, 25, 25, random.within(1..=3), 20, 12, 8],
            arbitrary: random.below(6),
            disturbed: random.below(10),
            issues: random.within(60..=95),
            rivals: random.below(15),
            replays: random.below(12),
        }
    }

    fn filling(random: &mut Random) -> Temper {
        Temper {
            kinds: [60, 25, 15, random.below(2), 4, 6, 4],
            arbitrary: random.below(10),
            disturbed: random.below(10),
            issues: random.below(10),
            rivals: 50,
            replays: random.below(20),
        }
    }

    fn wild(random: &mut Random) -> Temper {
        Temper {
            kinds: [20, 20, 20, 3, 15, 10, 10],
            arbitrary: random.within(10..=60),
            disturbed: random.within(10..=40),
            issues: random.below(100),
            rivals: random.below(100),
            replays: random.below(40),
        }
    }
}
