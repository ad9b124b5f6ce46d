//! The functions of `include/penkwadar.h`, each behind a safe function over slices.
//!
//! The header asks for little, and slices give it: a pointer that is aligned and reaches as many elements as its
//! length says, and no overlap, since outputs are borrowed mutably. Nothing is asked of what the elements hold.

use crate::seat::Seat;
use crate::step::Step;

mod c {
    unsafe extern "C" {
        /// Asks nothing of its argument.
        pub safe fn penkwadar_state_words(zones: u64) -> u64;
        pub fn penkwadar_setup(
            state: *mut u64,
            state_len: usize,
            plan: *const u64,
            plan_len: usize,
        ) -> u64;
        pub fn penkwadar_step(
            state: *mut u64,
            state_len: usize,
            kind: u64,
            a: u64,
            b: u64,
            c: u64,
            d: u64,
        ) -> u64;
        pub fn penkwadar_replay(
            state: *mut u64,
            state_len: usize,
            log: *const u8,
            log_len: usize,
            budget: u64,
            report: *mut u64,
            report_len: usize,
        ) -> u64;
        pub fn penkwadar_replay_tally(
            state: *mut u64,
            state_len: usize,
            log: *const u8,
            log_len: usize,
            budget: u64,
            report: *mut u64,
            report_len: usize,
            tally: *mut u64,
            tally_len: usize,
        ) -> u64;
        pub fn penkwadar_read_step(
            log: *const u8,
            log_len: usize,
            at: usize,
            step: *mut u64,
            step_len: usize,
        ) -> u64;
        pub fn penkwadar_write_step(
            out: *mut u8,
            out_len: usize,
            at: usize,
            kind: u64,
            a: u64,
            b: u64,
            c: u64,
            d: u64,
            count: *mut u64,
            count_len: usize,
        ) -> u64;
        pub fn penkwadar_stable_history(
            state: *const u64,
            state_len: usize,
            zone: u64,
            out: *mut u64,
            out_len: usize,
            count: *mut u64,
            count_len: usize,
        ) -> u64;
        pub fn penkwadar_stable_prefix(
            state: *const u64,
            state_len: usize,
            zone: u64,
            index: u64,
            host: u64,
            out: *mut u64,
            out_len: usize,
            count: *mut u64,
            count_len: usize,
        ) -> u64;
        pub fn penkwadar_trace(
            state: *const u64,
            state_len: usize,
            zone: u64,
            index: u64,
            host: u64,
            out: *mut u64,
            out_len: usize,
            count: *mut u64,
            count_len: usize,
        ) -> u64;
        pub fn penkwadar_csv(
            state: *const u64,
            state_len: usize,
            out: *mut u8,
            out_len: usize,
            count: *mut u64,
            count_len: usize,
        ) -> u64;
        pub fn penkwadar_transcript(
            log: *const u8,
            log_len: usize,
            out: *mut u8,
            out_len: usize,
            count: *mut u64,
            count_len: usize,
        ) -> u64;
    }
}

/// The length of a state for so many shards, or 0.
#[inline]
pub fn state_words(shards: u64) -> u64 {
    c::penkwadar_state_words(shards)
}

/// Writes the whole state from a plan.
#[inline]
pub fn setup(state: &mut [u64], plan: &[u64]) -> u64 {
    // SAFETY: pointers and lengths are those of slices; `state` is borrowed mutably, so `plan` does not overlap it.
    unsafe { c::penkwadar_setup(state.as_mut_ptr(), state.len(), plan.as_ptr(), plan.len()) }
}

/// Tries one step.
#[inline]
pub fn step(state: &mut [u64], Step { kind, numbers }: Step) -> u64 {
    let [a, b, c, d] = numbers;
    // SAFETY: pointer and length are those of one slice, borrowed mutably.
    unsafe { c::penkwadar_step(state.as_mut_ptr(), state.len(), kind, a, b, c, d) }
}

/// Reads and tries the steps of a log; the first four words of `report` tell how it went.
#[inline]
pub fn replay(state: &mut [u64], log: &[u8], budget: u64, report: &mut [u64]) -> u64 {
    // SAFETY: pointers and lengths are those of slices; `state` and `report` are borrowed mutably, so none overlap.
    unsafe {
        c::penkwadar_replay(
            state.as_mut_ptr(),
            state.len(),
            log.as_ptr(),
            log.len(),
            budget,
            report.as_mut_ptr(),
            report.len(),
        )
    }
}

/// The same; the first 17 words of `tally` become the counts of rejected steps: of each host, and of those that name none.
#[inline]
pub fn replay_tally(
    state: &mut [u64],
    log: &[u8],
    budget: u64,
    report: &mut [u64],
    tally: &mut [u64],
) -> u64 {
    // SAFETY: pointers and lengths are those of slices; all but `log` are borrowed mutably, so none overlap.
    unsafe {
        c::penkwadar_replay_tally(
            state.as_mut_ptr(),
            state.len(),
            log.as_ptr(),
            log.len(),
            budget,
            report.as_mut_ptr(),
            report.len(),
            tally.as_mut_ptr(),
            tally.len(),
        )
    }
}

/// Reads the step at a position; the first six words of `step` become kind, numbers and the position after it.
#[inline]
pub fn read_step(log: &[u8], at: usize, step: &mut [u64]) -> u64 {
    // SAFETY: pointers and lengths are those of slices; `step` is borrowed mutably, so `log` does not overlap it.
    unsafe { c::penkwadar_read_step(log.as_ptr(), log.len(), at, step.as_mut_ptr(), step.len()) }
}

/// Writes a step at a position; the first word of `count` becomes the number of its bytes.
#[inline]
pub fn write_step(out: &mut [u8], at: usize, step: Step, count: &mut [u64]) -> u64 {
    let [a, b, c, d] = step.numbers;
    // SAFETY: pointers and lengths are those of slices, both borrowed mutably, so they do not overlap.
    unsafe {
        c::penkwadar_write_step(
            out.as_mut_ptr(),
            out.len(),
            at,
            step.kind,
            a,
            b,
            c,
            d,
            count.as_mut_ptr(),
            count.len(),
        )
    }
}

/// Copies a shard's stable history; the first word of `count` becomes the number of its entries.
#[inline]
pub fn stable_history(state: &[u64], shard: u64, out: &mut [u64], count: &mut [u64]) -> u64 {
    // SAFETY: pointers and lengths are those of slices; outputs are borrowed mutably, so none overlap, and the
    // header promises that `state` is only read.
    unsafe {
        c::penkwadar_stable_history(
            state.as_ptr(),
            state.len(),
            shard,
            out.as_mut_ptr(),
            out.len(),
            count.as_mut_ptr(),
            count.len(),
        )
    }
}

/// Copies the stable prefix of a replica; the first word of `count` becomes the number of its entries.
#[inline]
pub fn stable_prefix(state: &[u64], seat: Seat, out: &mut [u64], count: &mut [u64]) -> u64 {
    read_seat(c::penkwadar_stable_prefix, state, seat, out, count)
}

/// Writes the hosts from which a replica's history came, nearest first; the first word of `count` becomes their number.
#[inline]
pub fn trace(state: &[u64], seat: Seat, out: &mut [u64], count: &mut [u64]) -> u64 {
    read_seat(c::penkwadar_trace, state, seat, out, count)
}

/// A function of the header that reads a state at a seat and writes words and their count.
type ReadSeat = unsafe extern "C" fn(
    state: *const u64,
    state_len: usize,
    zone: u64,
    index: u64,
    host: u64,
    out: *mut u64,
    out_len: usize,
    count: *mut u64,
    count_len: usize,
) -> u64;

/// Calls one.
#[inline]
fn read_seat(
    call: ReadSeat,
    state: &[u64],
    Seat { shard, index, host }: Seat,
    out: &mut [u64],
    count: &mut [u64],
) -> u64 {
    // SAFETY: pointers and lengths are those of slices; outputs are borrowed mutably, so none overlap, and the
    // header promises that `state` is only read.
    unsafe {
        call(
            state.as_ptr(),
            state.len(),
            shard,
            index,
            host,
            out.as_mut_ptr(),
            out.len(),
            count.as_mut_ptr(),
            count.len(),
        )
    }
}

/// Writes every shard's stable history as text for spreadsheets; the first word of `count` becomes its length.
#[inline]
pub fn csv(state: &[u64], out: &mut [u8], count: &mut [u64]) -> u64 {
    // SAFETY: pointers and lengths are those of slices; outputs are borrowed mutably, so none overlap, and the
    // header promises that `state` is only read.
    unsafe {
        c::penkwadar_csv(
            state.as_ptr(),
            state.len(),
            out.as_mut_ptr(),
            out.len(),
            count.as_mut_ptr(),
            count.len(),
        )
    }
}

/// Writes the program's text for a log; the first word of `count` becomes its length.
#[inline]
pub fn transcript(log: &[u8], out: &mut [u8], count: &mut [u64]) -> u64 {
    // SAFETY: pointers and lengths are those of slices; outputs are borrowed mutably, so none overlap.
    unsafe {
        c::penkwadar_transcript(
            log.as_ptr(),
            log.len(),
            out.as_mut_ptr(),
            out.len(),
            count.as_mut_ptr(),
            count.len(),
        )
    }
}
