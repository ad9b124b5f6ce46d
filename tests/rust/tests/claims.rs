//! The checker of the claims is itself checked: it has to see what wrong machines do.

use penkwadar_tests::claims::{Claims, Violation};
use penkwadar_tests::plain;
use penkwadar_tests::step::Step;
use penkwadar_tests::testing::plans::plan;
use penkwadar_tests::testing::random::Random;
use penkwadar_tests::testing::script::{INSTALL, Script};
use penkwadar_tests::testing::steps::any_step;
use penkwadar_tests::testing::temper::Temper;
use penkwadar_tests::testing::wrong::Wrong;
use penkwadar_tests::view::{ACTIVE, SHARD_WORDS, View, issue};

/// The runs of wrong machines are always the same.
const SEED: u64 = 1;

/// Shard 0 has 7 and 8 in both histories, 7 stable in both.
fn two_takes() -> Script {
    let mut script = Script::begin();
    script.play(&[
        Step::add(0, 1, 7),
        Step::add(0, 1, 8),
        Step::adopt(0, 1, 1),
        Step::learn(0, 1, 0, 1),
        Step::learn(0, 1, 1, 1),
    ]);
    assert_eq!(script.claims.reference(0), [7]);
    script
}

/// What the claims say to words that somebody changed.
fn verdict(change: impl Fn(&mut [u64])) -> Result<(), Violation> {
    two_takes().verdict(change, Step::wedge(0, 1, 0))
}

/// The first replica of shard 0 is at 64, the second at 128; words 1, 2, 3 and 8 of each: length, stable length,
/// origin, entries.
#[test]
fn changed_words() {
    assert_eq!(verdict(|_| ()), Ok(()));
    assert_eq!(verdict(|words| words[66] = 2), Ok(()), "learned a second time");
    assert_eq!(verdict(|words| words[66] = 0), Err(Violation::Shrinks));
    assert_eq!(verdict(|words| words[72] = 8), Err(Violation::Shrinks), "another stable entry");
    assert_eq!(verdict(|words| (words[66], words[73]) = (2, 9)), Err(Violation::NotOffered));
    assert_eq!(verdict(|words| (words[66], words[73]) = (2, 7)), Err(Violation::Twice));
    let unlike = |words: &mut [u64]| {
        (words[66], words[130]) = (2, 2);
        (words[73], words[137]) = (8, 9);
    };
    assert_eq!(verdict(unlike), Err(Violation::Disagrees), "in another replica");
    assert_eq!(verdict(|words| words[2] = 0b0101), Err(Violation::Vanished));
    assert_eq!(verdict(|words| words[67] = 1), Err(Violation::OtherOrigin), "in index 1");
    let two_issues = |words: &mut [u64]| {
        words[65] = 4;
        words[74..76].copy_from_slice(&[issue(2, 1, 4, 1 << 4), issue(2, 1, 5, 1 << 5)]);
    };
    assert_eq!(verdict(two_issues), Err(Violation::SecondIssue), "for one shard and index");
    let installed = |words: &mut [u64]| (words[1], words[3], words[11]) = (2, 1, 0);
    assert_eq!(verdict(installed), Err(Violation::NotFirstIssue), "nobody issued it");
}

#[test]
fn changed_by_a_rejection() {
    let Script { mut words, mut claims } = two_takes();
    words[66] = 2;
    let verdict = claims.after_step(Step::learn(0, 1, 0, 2), 18, &words);
    assert_eq!(verdict, Err(Violation::ChangedByRejection));
}

/// No step of a run meets an earlier issue for its shard and index.
#[test]
fn rejected_by_an_earlier_issue() {
    let Script { words, mut claims } = two_takes();
    let verdict = claims.after_step(Step::install(1, 1, 0, 0), 22, &words);
    assert_eq!(verdict, Err(Violation::EarlierIssue));
}

#[test]
fn not_empty_after_setup() {
    let Script { words, .. } = two_takes();
    assert_eq!(Claims::after_setup(&words).err(), Some(Violation::SetupNotEmpty));
    let Script { mut words, .. } = Script::begin();
    words[67] = 1;
    assert_eq!(Claims::after_setup(&words).err(), Some(Violation::SetupNotEmpty), "an origin");
}

/// An entry may become stable again elsewhere, but not another one in its place.
#[test]
fn other_entry_at_a_later_moment() {
    let mut script = Script::installed(&[Step::wedge(0, 1, 0)], &[4]);
    script.play(&[
        Step::inherit(0, 2, 4, 0),
        Step::add(0, 2, 7),
        Step::learn(0, 2, 4, 1),
        Step::add(0, 2, 8),
    ]);
    // The replica of index 1 that was not wedged holds another stable entry, which was offered.
    let other = |words: &mut [u64]| (words[128 + 1], words[128 + 2], words[128 + 8]) = (1, 1, 8);
    assert_eq!(script.verdict(other, Step::wedge(0, 1, 0)), Err(Violation::Disagrees));
}

/// Index 2 is installed and nobody of index 1 is wedged: nobody can inherit, until somebody is.
#[test]
fn without_a_source() {
    let mut script = Script::issued(&[4]);
    script.play_wrong(
        Wrong::InstallUnwedged,
        &[
            (INSTALL, Err(Violation::NoSource)),
            (Step::add(0, 1, 7), Err(Violation::NoSource)),
            (Step::wedge(0, 1, 0), Ok(())),
        ],
    );
    script.play(&[Step::inherit(0, 2, 4, 0)]);
}

/// Where only a host of the sequencer is wedged, the one error installs; where only one of the shard itself is, it does
/// not, which breaks no claim.
#[test]
fn wedged_in_the_sequencer() {
    let wrong = Wrong::InstallSequencerWedged;
    let mut script = Script::issued(&[4]);
    script.play(&[Step::wedge(1, 1, 2)]);
    script.play_wrong(wrong, &[(INSTALL, Err(Violation::NoSource))]);
    let mut script = Script::issued(&[4]);
    script.play(&[Step::wedge(0, 1, 0)]);
    let before = script.words.clone();
    assert_eq!((wrong.step(&mut script.words, INSTALL), &script.words), (24, &before));
}

/// A wedged replica goes on, before and after the next configuration is installed: `HOST_0` and `HOST_1` of index 1.
#[test]
fn immutable_no_longer() {
    const HOST_0: usize = 64;
    const HOST_1: usize = 128;
    let steps = [Step::wedge(0, 1, 0), Step::wedge(0, 1, 1)];
    let mut issued = Script::issued(&[4]);
    issued.play(&steps);
    let changed = Err(Violation::ImmutableChanged);
    let active = |words: &mut [u64]| words[HOST_0] = ACTIVE;
    assert_eq!(issued.verdict(active, INSTALL), changed);
    let verdict = |change: &dyn Fn(&mut [u64])| {
        Script::installed(&steps, &[4]).verdict(change, Step::add(0, 1, 7))
    };
    assert_eq!(verdict(&|_| ()), Ok(()));
    assert_eq!(verdict(&active), changed);
    assert_eq!(verdict(&|words| (words[HOST_0], words[HOST_1]) = (ACTIVE, ACTIVE)), changed);
    let longer = |words: &mut [u64]| (words[HOST_1 + 1], words[HOST_1 + 8]) = (1, 7);
    assert_eq!(verdict(&longer), changed, "one more entry");
}

/// Random runs of machines with one error each: some run has to break a claim, and never in an unfit way.
#[test]
fn wrong_machines() {
    for wrong in Wrong::ALL {
        let mut seen = Vec::new();
        let first = (0..10_000).find(|&run| {
            let violation = run_wrong(wrong, run);
            seen.extend(violation);
            violation.is_some()
        });
        println!("{wrong:?}: {seen:?} in run {first:?}");
        let fit = seen.iter().all(|violation| wrong.violations().contains(violation));
        assert!(first.is_some() && fit, "{wrong:?}: {seen:?}");
    }
}

/// The first claim that one run breaks.
fn run_wrong(wrong: Wrong, run: u64) -> Option<Violation> {
    let mut random = Random::of_run(SEED, run);
    let shards = random.within(2..=3);
    let plan = plan(&mut random, shards);
    let mut words = vec![0; shards as usize * SHARD_WORDS];
    plain::setup(&mut words, &plan).expect("a good plan");
    let mut claims = Claims::after_setup(&words).expect("the claims after setup");
    let temper = Temper::any(&mut random);
    (0..800).find_map(|_| {
        let step = any_step(&mut random, View::new(&words), &temper);
        let answer = wrong.step(&mut words, step);
        claims.after_step(step, answer, &words).err()
    })
}
