//! Replays that tell rejections by host, against plain Rust and against replays that do not.

use super::clock::{Case, measure_sides};
use super::replays::{MIXED, Replays};
use super::table::{SIDES, Table, ratio, sides};
use crate::interface::{Plain, Proved, Tuned};
use crate::testing::temper::Temper;

/// In all steps one number is disturbed, so that most of them are rejected, for hosts of all sorts.
const DISTURBED: Temper = Temper { disturbed: 100, ..MIXED };

/// Steps with any numbers: nearly all are rejected because of these, most of them for no host.
const ARBITRARY: Temper = Temper { arbitrary: 100, ..MIXED };

/// The cells of a row after its name.
fn cells(mut replays: Replays, shards: u64) -> Vec<String> {
    let all = [
        Replays::run_tally::<Proved>,
        Replays::run_tally::<Plain>,
        Replays::run_tally::<Tuned>,
        Replays::run::<Proved>,
        Replays::run::<Plain>,
        Replays::run::<Tuned>,
    ];
    let times = measure_sides(&mut replays, all);
    let [proved, plain, tuned, ..] = times;
    let steps = [shards.to_string(), replays.steps.to_string(), replays.log.rejected.to_string()];
    let untold = [0, 1, 2].map(|side| ratio(times[side], times[side + 3]));
    [&steps[..], &sides([proved, plain, tuned]), &untold].concat()
}

pub fn tables() -> Vec<Table> {
    let mut table = Table::new(
        "## Replays with a tally\n\nA fresh log each round, on a state after setup, in ns for the whole replay; the last three \
         columns compare with the same replay without a tally. First logs of adds, adopts and learns that are all accepted; \
         then the mixed logs of the replays above, logs with one number of every step disturbed, and with any numbers.",
        &[
            &["log", "Z", "steps", "rejected (last)"],
            &SIDES[..],
            &["proved, with/without", "plain, with/without", "tuned, with/without"],
        ]
        .concat(),
    );
    for (shards, steps) in [(2, 10), (2, 100), (2, 1_000), (8, 1_000)] {
        let cells = cells(Replays::accepted(shards, steps), shards);
        table.row(&[vec!["accepted".to_string()], cells].concat());
    }
    let logs = [("mixed", &MIXED), ("disturbed", &DISTURBED), ("any numbers", &ARBITRARY)];
    for (name, temper) in logs {
        for (shards, steps) in [(2, 10), (2, 100), (2, 1_000), (2, 10_000), (8, 1_000)] {
            let cells = cells(Replays::of_temper(temper, shards, steps), shards);
            table.row(&[vec![name.to_string()], cells].concat());
        }
    }
    vec![table]
}
