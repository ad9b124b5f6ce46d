//! Times of several sides, taken in turn.

use std::time::{Duration, Instant};

use crate::interface::{Interface, Plain, Proved, Tuned};

/// How long one case is measured, and in how many rounds at least.
const TIME: Duration = Duration::from_millis(1_000);
const ROUNDS: u64 = 20;

/// Something to be timed.
pub trait Case {
    /// New input for a round.
    fn refresh(&mut self) {}

    /// Buffers as they were, before each side's turn.
    fn restore(&mut self) {}

    /// What is timed; gives something that depends on all answers.
    fn run<I: Interface>(&mut self) -> u64;

    /// What the time is divided by.
    fn units(&self) -> usize;
}

/// The least nanoseconds a unit: proved, plain, tuned.
pub fn measure<C: Case>(case: &mut C) -> [f64; 3] {
    measure_sides(case, [C::run::<Proved>, C::run::<Plain>, C::run::<Tuned>])
}

/// The least nanoseconds a unit of each side. The first three sides have to give the same.
pub fn measure_sides<C: Case, const N: usize>(
    case: &mut C,
    sides: [fn(&mut C) -> u64; N],
) -> [f64; N] {
    let mut least = [f64::INFINITY; N];
    let start = Instant::now();
    let mut round = 0;
    while round < ROUNDS as usize || start.elapsed() < TIME {
        case.refresh();
        let mut given = [0; N];
        for turn in 0..N {
            let side = (turn + round) % N;
            case.restore();
            let start = Instant::now();
            given[side] = sides[side](case);
            let time = start.elapsed().as_nanos() as f64 / case.units() as f64;
            least[side] = least[side].min(time);
        }
        assert_eq!(given[0], given[1], "proved and plain give the same");
        assert_eq!(given[0], given[2], "proved and tuned give the same");
        round += 1;
    }
    least
}
