//! The checker of the claims is itself checked: how replicas began, by inherit and through peers.

use penkwadar_tests::claims::Violation;
use penkwadar_tests::seat::Seat;
use penkwadar_tests::step::Step;
use penkwadar_tests::testing::script::Script;
use penkwadar_tests::testing::wrong::Wrong;
use penkwadar_tests::view::{ACTIVE, IMMUTABLE, PENDING, issue};

const WRONG: Result<(), Violation> = Err(Violation::WrongBeginning);
const ORIGIN: Result<(), Violation> = Err(Violation::OtherOrigin);
const CHANGED: Result<(), Violation> = Err(Violation::SourceChanged);

/// Where the words of hosts 0 and 1 of index 1 and of hosts 4 and 5 of index 2 of shard 0 begin.
const HOST_0: usize = 64;
const HOST_1: usize = 128;
const HOST_4: usize = 320;
const HOST_5: usize = 384;

/// Hosts 0 and 1 are wedged with take 7; hosts 4, 5 and 6 of index 2 are pending.
fn wedged() -> Script {
    let steps =
        [Step::add(0, 1, 7), Step::adopt(0, 1, 1), Step::wedge(0, 1, 0), Step::wedge(0, 1, 1)];
    Script::installed(&steps, &[4, 5, 6])
}

/// Host 4 inherited from host 0.
fn inherited() -> Script {
    let mut script = wedged();
    script.play(&[Step::inherit(0, 2, 4, 0)]);
    script
}

/// Host 5 caught up from it, and host 6 from host 5.
fn caught_up() -> Script {
    let mut script = inherited();
    script.play(&[Step::catch_up(0, 2, 5, 4), Step::catch_up(0, 2, 6, 5)]);
    script
}

/// A replica gets a mode, an origin, one take, and a stable length of 0.
fn write(place: usize, mode: u64, origin: u64, take: u64) -> impl Fn(&mut [u64]) {
    move |words| {
        words[place..place + 4].copy_from_slice(&[mode, 1, 0, origin]);
        words[place + 8] = take;
    }
}

/// A replica stops being pending by an inherit.
#[test]
fn by_inherit() {
    let inherit = Step::inherit(0, 2, 4, 0);
    let right = write(HOST_4, ACTIVE, 1, 7);
    assert_eq!(wedged().verdict(&right, inherit), Ok(()));
    assert_eq!(wedged().verdict(&right, Step::wedge(0, 1, 0)), WRONG, "by another step");
    assert_eq!(wedged().verdict(&right, Step::inherit(0, 2, 5, 0)), WRONG, "by another host");
    assert_eq!(wedged().verdict(&right, Step::inherit(0, 2, 4, 2)), WRONG, "of no member");
    let verdict = |mode, origin, take| wedged().verdict(write(HOST_4, mode, origin, take), inherit);
    assert_eq!(verdict(ACTIVE, 1, 8), WRONG, "with another history");
    assert_eq!(verdict(IMMUTABLE, 1, 7), WRONG, "in another mode");
    assert_eq!(verdict(ACTIVE, 0, 7), ORIGIN, "without an origin");
    let other = wedged().verdict(&right, Step::inherit(0, 2, 4, 1));
    assert_eq!(other, ORIGIN, "of the other source");
    let pending = wedged().verdict(|words| words[HOST_4 + 3] = 1, inherit);
    assert_eq!(pending, ORIGIN, "still pending");
    let active = |words: &mut [u64]| {
        right(words);
        words[HOST_0] = ACTIVE;
    };
    assert_eq!(wedged().verdict(active, inherit), CHANGED, "of an active source");
}

/// A replica stops being pending by a catch-up.
#[test]
fn by_catch_up() {
    let catch_up = Step::catch_up(0, 2, 5, 4);
    let right = write(HOST_5, ACTIVE, 1, 7);
    assert_eq!(inherited().verdict(&right, catch_up), Ok(()));
    assert_eq!(inherited().verdict(&right, Step::wedge(0, 2, 4)), WRONG, "by another step");
    assert_eq!(inherited().verdict(&right, Step::catch_up(0, 2, 6, 4)), WRONG, "by another host");
    for peer in [0, 5, 6, 7] {
        let verdict = inherited().verdict(&right, Step::catch_up(0, 2, 5, peer));
        assert_eq!(verdict, WRONG, "of host {peer}, which is no member or pending");
    }
    let verdict =
        |mode, origin, take| inherited().verdict(write(HOST_5, mode, origin, take), catch_up);
    assert_eq!(verdict(ACTIVE, 1, 8), WRONG, "with another history");
    assert_eq!(verdict(IMMUTABLE, 1, 7), WRONG, "in another mode");
    assert_eq!(verdict(ACTIVE, 0, 7), ORIGIN, "without an origin");
    assert_eq!(verdict(ACTIVE, 2, 7), ORIGIN, "with another source");
    assert_eq!(verdict(ACTIVE, 5, 7), ORIGIN, "with the peer as source");
    let stable = |words: &mut [u64]| {
        right(words);
        words[HOST_5 + 2] = 1;
    };
    assert_eq!(inherited().verdict(stable, catch_up), WRONG, "with another stable length");
    let changed = |words: &mut [u64]| {
        write(HOST_5, ACTIVE, 1, 8)(words);
        words[HOST_4 + 8] = 8;
    };
    assert_eq!(inherited().verdict(changed, catch_up), WRONG, "of a peer that changed with it");
}

/// A replica that inherited, and its source, at a later moment.
#[test]
fn after_an_inherit() {
    let verdict = |change: &dyn Fn(&mut [u64])| inherited().verdict(change, Step::wedge(0, 2, 4));
    assert_eq!(verdict(&|words| words[HOST_4] = IMMUTABLE), Ok(()));
    assert_eq!(verdict(&|words| words[HOST_4 + 3] = 2), ORIGIN, "the other source");
    assert_eq!(verdict(&|words| words[HOST_4 + 3] = 0), ORIGIN);
    assert_eq!(verdict(&|words| words[HOST_0] = ACTIVE), CHANGED);
    assert_eq!(verdict(&|words| words[HOST_0 + 2] = 1), CHANGED, "it learned");
    let longer = |words: &mut [u64]| (words[HOST_0 + 1], words[HOST_0 + 9]) = (2, 8);
    assert_eq!(verdict(&longer), CHANGED, "one more entry");
    let thawed = verdict(&|words| words[HOST_1] = ACTIVE);
    assert_eq!(thawed, Err(Violation::ImmutableChanged), "nobody's source");
    assert_eq!(verdict(&|words| words[HOST_4] = PENDING), WRONG);
}

/// A replica that caught up, its peer and their source, at a later moment.
#[test]
fn after_a_catch_up() {
    let verdict = |change: &dyn Fn(&mut [u64])| caught_up().verdict(change, Step::wedge(0, 2, 4));
    assert_eq!(verdict(&|words| words[HOST_4] = IMMUTABLE), Ok(()), "the peer goes on");
    assert_eq!(verdict(&|words| words[HOST_5] = IMMUTABLE), Ok(()));
    assert_eq!(verdict(&|words| words[HOST_5 + 3] = 2), ORIGIN, "another source");
    assert_eq!(verdict(&|words| words[HOST_5 + 3] = 5), ORIGIN, "the peer as source");
    assert_eq!(verdict(&|words| words[HOST_5 + 3] = 0), ORIGIN);
    assert_eq!(verdict(&|words| words[HOST_5] = PENDING), WRONG);
    assert_eq!(verdict(&|words| words[HOST_0] = ACTIVE), CHANGED);
}

/// Inherit from an active replica, which goes on: at once the source is not immutable, and then there are two lists.
#[test]
fn an_active_source() {
    let mut script = Script::installed(&[Step::add(0, 1, 7), Step::wedge(0, 1, 0)], &[4]);
    script.play_wrong(
        Wrong::InheritActive,
        &[
            (Step::inherit(0, 2, 4, 1), CHANGED),
            (Step::add(0, 2, 8), CHANGED),
            (Step::learn(0, 2, 4, 1), CHANGED),
            (Step::adopt(0, 1, 1), CHANGED),
            (Step::learn(0, 1, 1, 1), Err(Violation::Disagrees)),
        ],
    );
}

/// Catch up from a pending peer, which has no history yet, and so without what is stable in the index before: at once
/// the replica began from nothing, and then there are two lists.
#[test]
fn a_pending_peer() {
    let steps =
        [Step::add(0, 1, 7), Step::adopt(0, 1, 1), Step::learn(0, 1, 1, 1), Step::wedge(0, 1, 0)];
    Script::installed(&steps, &[4, 5]).play_wrong(
        Wrong::CatchUpPending,
        &[
            (Step::catch_up(0, 2, 4, 5), WRONG),
            (Step::catch_up(0, 2, 5, 4), WRONG),
            (Step::add(0, 2, 8), WRONG),
            (Step::adopt(0, 2, 5), WRONG),
            (Step::learn(0, 2, 5, 1), Err(Violation::Disagrees)),
        ],
    );
}

/// Three configurations: the trace goes by the inherits, and is that of its peer where a replica caught up.
#[test]
fn traces() {
    let wedges = [Step::wedge(0, 1, 0), Step::wedge(0, 1, 1)];
    let mut script = Script::installed(&wedges, &[4, 5, 6]);
    let seat = |index, host| Seat { shard: 0, index, host };
    assert_eq!(script.claims.trace(seat(2, 4)), [], "pending");
    script.play(&[
        Step::inherit(0, 2, 4, 1),
        Step::inherit(0, 2, 5, 0),
        Step::catch_up(0, 2, 6, 4),
        Step::add(1, 1, issue(3, 0, 7, 0b11 << 7)),
        Step::adopt(1, 1, 3),
        Step::learn(1, 1, 3, 2),
        Step::wedge(0, 2, 6),
        Step::install(0, 1, 3, 1),
        Step::inherit(0, 3, 7, 6),
        Step::catch_up(0, 3, 8, 7),
    ]);
    assert_eq!(script.claims.trace(seat(3, 7)), [6, 1]);
    assert_eq!(script.claims.trace(seat(3, 8)), [6, 1]);
    assert_eq!(script.claims.trace(seat(2, 6)), [1]);
    assert_eq!(script.claims.trace(seat(2, 4)), [1]);
    assert_eq!(script.claims.trace(seat(2, 5)), [0]);
    assert_eq!(script.claims.trace(seat(1, 1)), []);
}

/// How many catch-ups lie between a replica and the inherit that began its history.
#[test]
fn through_peers() {
    let Script { claims, words } = caught_up();
    let catch_ups = [4, 5, 6].map(|host| claims.catch_ups(Seat { shard: 0, index: 2, host }));
    assert_eq!(catch_ups, [0, 1, 2]);
    assert_eq!(words[HOST_5..HOST_5 + 64], words[HOST_4..HOST_4 + 64]);
}
