//! Random runs from setup: plain, tuned and proved, call by call, with the claims of every moment.

use penkwadar_tests::testing::coverage::{Coverage, NEVER_FROM_SETUP};
use penkwadar_tests::testing::driver::Driver;
use penkwadar_tests::testing::random::Random;
use penkwadar_tests::testing::settings::{self, Note};

/// Below so many steps not everything needs to have occurred.
const COMPLETE: u64 = 200_000;

/// A million steps, unless `PENKWADAR_STEPS` says otherwise.
#[test]
fn random_runs() {
    let (seed, steps) = (settings::seed(), settings::steps());
    let mut coverage = Coverage::default();
    let mut run = settings::only_run().unwrap_or(0);
    loop {
        one_run(seed, run, &mut coverage);
        run += 1;
        if settings::only_run().is_some() || coverage.steps >= steps {
            break;
        }
    }
    println!("seed {seed}, runs before {run}: {coverage}");
    if coverage.steps >= COMPLETE {
        assert_complete(&coverage);
    }
}

fn one_run(seed: u64, run: u64, coverage: &mut Coverage) {
    let _note = Note { seed, run };
    let mut random = Random::of_run(seed, run);
    let mut driver = Driver::from_setup(&mut random, coverage);
    let steps = driver.random.within(100..=1_200);
    driver.go(steps);
}

fn assert_complete(coverage: &Coverage) {
    coverage.assert_kinds(&[NEVER_FROM_SETUP]);
    coverage.assert_answers(&[NEVER_FROM_SETUP]);
    let all = |counts: &[u64]| counts.iter().all(|&count| count > 0);
    assert!(all(&coverage.stops), "a way to stop is missing\n{coverage}");
    assert!(all(&coverage.shards[2..]), "a number of shards is missing\n{coverage}");
    assert!(all(&coverage.indices[2..]), "an index was never installed\n{coverage}");
    assert!(coverage.kinds[5][24] >= 100, "hardly any install before a wedge\n{coverage}");
    assert!(coverage.full > 0, "no history was filled\n{coverage}");
    assert!(coverage.unlike > 0, "no histories were unlike\n{coverage}");
    assert!(coverage.catch_ups.are_complete(100), "a sort of catch-up is missing\n{coverage}");
    assert!(coverage.catch_ups.again >= 50, "hardly any peer caught up itself\n{coverage}");
    assert_eq!(coverage.capped, 0, "an adopt was capped in a run from setup\n{coverage}");
}
