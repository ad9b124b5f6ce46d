//! The C header's functions over slices, as a trait of the proved, the plain and the tuned implementation.
//!
//! Tests compare them through it: one number as the answer, and everything else in buffers. The benchmark measures
//! them through it: each side pays one call.

use crate::rejection::{Rejection, number_of};
use crate::report::{Report, Stop};
use crate::seat::Seat;
use crate::step::Step;
use crate::tally::Tally;
use crate::{plain, proved::ffi, tuned};

pub trait Interface {
    fn state_words(shards: u64) -> u64;
    fn setup(state: &mut [u64], plan: &[u64]) -> u64;
    fn step(state: &mut [u64], step: Step) -> u64;
    fn replay(state: &mut [u64], log: &[u8], budget: u64, report: &mut [u64]) -> u64;
    fn replay_tally(
        state: &mut [u64],
        log: &[u8],
        budget: u64,
        report: &mut [u64],
        tally: &mut [u64],
    ) -> u64;
    fn read_step(log: &[u8], at: usize, step: &mut [u64]) -> u64;
    fn write_step(out: &mut [u8], at: usize, step: Step, count: &mut [u64]) -> u64;
    fn stable_history(state: &[u64], shard: u64, out: &mut [u64], count: &mut [u64]) -> u64;
    fn stable_prefix(state: &[u64], seat: Seat, out: &mut [u64], count: &mut [u64]) -> u64;
    fn trace(state: &[u64], seat: Seat, out: &mut [u64], count: &mut [u64]) -> u64;
    fn csv(state: &[u64], out: &mut [u8], count: &mut [u64]) -> u64;
    fn transcript(log: &[u8], out: &mut [u8], count: &mut [u64]) -> u64;
}

/// The proved machine.
pub struct Proved;

impl Interface for Proved {
    #[inline]
    fn state_words(shards: u64) -> u64 {
        ffi::state_words(shards)
    }

    #[inline]
    fn setup(state: &mut [u64], plan: &[u64]) -> u64 {
        ffi::setup(state, plan)
    }

    #[inline]
    fn step(state: &mut [u64], step: Step) -> u64 {
        ffi::step(state, step)
    }

    #[inline]
    fn replay(state: &mut [u64], log: &[u8], budget: u64, report: &mut [u64]) -> u64 {
        ffi::replay(state, log, budget, report)
    }

    #[inline]
    fn replay_tally(
        state: &mut [u64],
        log: &[u8],
        budget: u64,
        report: &mut [u64],
        tally: &mut [u64],
    ) -> u64 {
        ffi::replay_tally(state, log, budget, report, tally)
    }

    #[inline]
    fn read_step(log: &[u8], at: usize, step: &mut [u64]) -> u64 {
        ffi::read_step(log, at, step)
    }

    #[inline]
    fn write_step(out: &mut [u8], at: usize, step: Step, count: &mut [u64]) -> u64 {
        ffi::write_step(out, at, step, count)
    }

    #[inline]
    fn stable_history(state: &[u64], shard: u64, out: &mut [u64], count: &mut [u64]) -> u64 {
        ffi::stable_history(state, shard, out, count)
    }

    #[inline]
    fn stable_prefix(state: &[u64], seat: Seat, out: &mut [u64], count: &mut [u64]) -> u64 {
        ffi::stable_prefix(state, seat, out, count)
    }

    #[inline]
    fn trace(state: &[u64], seat: Seat, out: &mut [u64], count: &mut [u64]) -> u64 {
        ffi::trace(state, seat, out, count)
    }

    #[inline]
    fn csv(state: &[u64], out: &mut [u8], count: &mut [u64]) -> u64 {
        ffi::csv(state, out, count)
    }

    #[inline]
    fn transcript(log: &[u8], out: &mut [u8], count: &mut [u64]) -> u64 {
        ffi::transcript(log, out, count)
    }
}

/// The plain implementation, and the tuned one.
pub struct Plain;
pub struct Tuned;

/// Either is a module of functions over the same slices.
macro_rules! interface_of_module {
    ($side:ident, $module:ident) => {
        impl Interface for $side {
            #[inline(never)]
            fn state_words(shards: u64) -> u64 {
                $module::state_words(shards)
            }

            #[inline(never)]
            fn setup(state: &mut [u64], plan: &[u64]) -> u64 {
                number_of(&$module::setup(state, plan))
            }

            #[inline(never)]
            fn step(state: &mut [u64], step: Step) -> u64 {
                number_of(&$module::step(state, step))
            }

            #[inline(never)]
            fn replay(state: &mut [u64], log: &[u8], budget: u64, report: &mut [u64]) -> u64 {
                let Some(report) = report.first_chunk_mut() else {
                    return Rejection::OutputShort.number();
                };
                reported($module::replay(state, log, budget), report)
            }

            #[inline(never)]
            fn replay_tally(
                state: &mut [u64],
                log: &[u8],
                budget: u64,
                report: &mut [u64],
                tally: &mut [u64],
            ) -> u64 {
                let (Some(report), Some(words)) =
                    (report.first_chunk_mut(), tally.first_chunk_mut())
                else {
                    return Rejection::OutputShort.number();
                };
                let mut tally = Tally::from_words(*words);
                let replayed = $module::replay_tally(state, log, budget, &mut tally);
                *words = tally.words();
                reported(replayed, report)
            }

            #[inline(never)]
            fn read_step(log: &[u8], at: usize, step: &mut [u64]) -> u64 {
                let Some(words) = step.first_chunk_mut() else {
                    return Rejection::OutputShort.number();
                };
                let read = $module::read_step(log, at);
                match read {
                    Ok(None) => *words = [0; 6],
                    Ok(Some((step, after))) => *words = step_words(step, after),
                    Err(_) => (),
                }
                number_of(&read)
            }

            #[inline(never)]
            fn write_step(out: &mut [u8], at: usize, step: Step, count: &mut [u64]) -> u64 {
                counted(count, || $module::write_step(out, at, step))
            }

            #[inline(never)]
            fn stable_history(
                state: &[u64],
                shard: u64,
                out: &mut [u64],
                count: &mut [u64],
            ) -> u64 {
                counted(count, || $module::stable_history(state, shard, out))
            }

            #[inline(never)]
            fn stable_prefix(state: &[u64], seat: Seat, out: &mut [u64], count: &mut [u64]) -> u64 {
                counted(count, || $module::stable_prefix(state, seat, out))
            }

            #[inline(never)]
            fn trace(state: &[u64], seat: Seat, out: &mut [u64], count: &mut [u64]) -> u64 {
                counted(count, || $module::trace(state, seat, out))
            }

            #[inline(never)]
            fn csv(state: &[u64], out: &mut [u8], count: &mut [u64]) -> u64 {
                counted(count, || $module::csv(state, out))
            }

            #[inline(never)]
            fn transcript(log: &[u8], out: &mut [u8], count: &mut [u64]) -> u64 {
                counted(count, || $module::transcript(log, out))
            }
        }
    };
}

interface_of_module!(Plain, plain);
interface_of_module!(Tuned, tuned);

/// Writes the report of a replay, if it was not rejected; gives the answer.
fn reported(replayed: Result<Report, Rejection>, report: &mut [u64; 4]) -> u64 {
    match replayed {
        Ok(told) => {
            *report = report_words(&told);
            damage(told.stop)
        }
        Err(rejection) => rejection.number(),
    }
}

fn report_words(report: &Report) -> [u64; 4] {
    let stop = match report.stop {
        Stop::Ended => 0,
        Stop::Spent => 1,
        Stop::Damaged(_) => 2,
    };
    [stop, report.tried, report.rejected, report.bytes]
}

fn damage(stop: Stop) -> u64 {
    match stop {
        Stop::Damaged(damage) => damage.number(),
        Stop::Ended | Stop::Spent => 0,
    }
}

fn step_words(step: Step, after: usize) -> [u64; 6] {
    let [a, b, c, d] = step.numbers;
    [step.kind, a, b, c, d, after as u64]
}

/// Makes a call whose count goes to the first word of `count`, if there is one.
fn counted(count: &mut [u64], call: impl FnOnce() -> Result<usize, Rejection>) -> u64 {
    let Some(count) = count.first_mut() else {
        return Rejection::OutputShort.number();
    };
    let answer = call();
    if let Ok(length) = answer {
        *count = length as u64;
    }
    number_of(&answer)
}
