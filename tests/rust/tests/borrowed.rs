//! Calls on random well-formed states that need not come from any setup: rival issues, capped adopts, unlike stable
//! prefixes.

use penkwadar_tests::testing::coverage::Coverage;
use penkwadar_tests::testing::driver::Driver;
use penkwadar_tests::testing::random::Random;
use penkwadar_tests::testing::settings::{self, Note};
use penkwadar_tests::testing::states::well_formed;

const RUNS: u64 = 1_500;

#[test]
fn random_states() {
    let seed = settings::seed();
    let mut coverage = Coverage::default();
    let runs = settings::only_run().map_or(0..RUNS, |run| run..run + 1);
    for run in runs {
        one_run(seed, run, &mut coverage);
    }
    println!("seed {seed}: {coverage}");
    if settings::only_run().is_none() {
        assert_complete(&coverage);
    }
}

fn one_run(seed: u64, run: u64, coverage: &mut Coverage) {
    let _note = Note { seed, run };
    let mut random = Random::of_run(seed, run);
    let words = well_formed(&mut random, 2 + run % 7);
    Driver::from_words(&mut random, coverage, &words).go(60);
}

fn assert_complete(coverage: &Coverage) {
    coverage.assert_kinds(&[]);
    assert!(coverage.capped >= 100, "adopt's cap was hardly met\n{coverage}");
    assert!(coverage.kinds[1][23] >= 100, "hardly any rival issue added\n{coverage}");
    assert!(coverage.kinds[5][22] >= 100, "hardly any rival issue installed\n{coverage}");
    assert!(coverage.kinds[5][24] >= 100, "hardly any install before a wedge\n{coverage}");
    assert!(coverage.indices[2..].iter().all(|&n| n >= 100), "hardly any installs\n{coverage}");
    assert!(coverage.unlike >= 100, "hardly any unlike histories\n{coverage}");
    assert!(coverage.catch_ups.are_complete(100), "hardly any catch-ups of a sort\n{coverage}");
}
