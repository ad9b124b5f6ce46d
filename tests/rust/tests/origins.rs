//! Origins, word 3 of replicas, as part of well-formedness: every value in every replica, and sources that are lost.

use std::collections::BTreeMap;

use penkwadar_tests::seat::Seat;
use penkwadar_tests::testing::random::Random;
use penkwadar_tests::testing::settings;
use penkwadar_tests::testing::sides;
use penkwadar_tests::testing::states::well_formed;
use penkwadar_tests::testing::triplet::Triplet;
use penkwadar_tests::view::{PENDING, SHARD_WORDS, View};

/// What an origin is in its place.
#[derive(Clone, Copy, Debug, PartialEq, Eq, PartialOrd, Ord)]
enum Origin {
    /// 0 in a pending, unused or index 1 replica.
    None,
    /// It names a member of the index before whose replica is not pending.
    Source,
    /// Not 0, where it has to be.
    InUnused,
    InFirst,
    InPending,
    /// 0, where a source has to be named.
    Zero,
    Above16,
    /// It names a pending replica of the index before.
    Pending,
    /// It names no member of the index before: a member of its own index, or not even that.
    OwnMember,
    NoMember,
}

impl Origin {
    const ALL: [Origin; 10] = [
        Origin::None,
        Origin::Source,
        Origin::InUnused,
        Origin::InFirst,
        Origin::InPending,
        Origin::Zero,
        Origin::Above16,
        Origin::Pending,
        Origin::OwnMember,
        Origin::NoMember,
    ];

    fn is_proper(self) -> bool {
        matches!(self, Origin::None | Origin::Source)
    }

    /// What a word is as the origin of replica `number` of an index, from the sentence of request A3.
    fn of(view: View, shard: u64, index: u64, number: usize, word: u64) -> Origin {
        let replica = view.replicas(shard, index).nth(number);
        match (replica, word) {
            (None, 0) => Origin::None,
            (None, _) => Origin::InUnused,
            (Some(_), 0) if index == 1 => Origin::None,
            (Some(_), _) if index == 1 => Origin::InFirst,
            (Some(replica), 0) if replica.mode() == PENDING => Origin::None,
            (Some(replica), _) if replica.mode() == PENDING => Origin::InPending,
            (Some(_), 0) => Origin::Zero,
            (Some(_), 1..=16) => Origin::named(view, shard, index, word - 1),
            (Some(_), _) => Origin::Above16,
        }
    }

    fn named(view: View, shard: u64, index: u64, host: u64) -> Origin {
        match view.replica(shard, index - 1, host) {
            Some(source) if source.mode() == PENDING => Origin::Pending,
            Some(_) => Origin::Source,
            None if view.replica(shard, index, host).is_some() => Origin::OwnMember,
            None => Origin::NoMember,
        }
    }
}

/// All values that name hosts, those next to them, those that name hosts by their low bits, and huge ones.
fn values() -> impl Iterator<Item = u64> {
    let hosts = (0..=18).chain(65..=80).chain((1 << 32)..=(1 << 32) + 16);
    hosts.chain([32, 56, 1 << 16, 1 << 63, (1 << 63) + 1, u64::MAX])
}

/// All replicas of a state, used or not: shard, index, number, and where the words begin.
fn all_places(shards: u64) -> impl Iterator<Item = (u64, u64, usize, usize)> {
    (0..shards).flat_map(|shard| {
        (0..32).map(move |k| {
            let place = shard as usize * SHARD_WORDS + 64 + 64 * k;
            (shard, 1 + k as u64 / 4, k % 4, place)
        })
    })
}

/// Whether a replay and a trace find a state well-formed.
fn is_well_formed(state: &mut Triplet<u64>) -> bool {
    let seat = Seat { shard: 0, index: 1, host: 0 };
    let traced = sides::trace(state, seat, &mut Triplet::filled(7, 5), 1);
    let replayed = sides::replay(state, &[], 0);
    assert_eq!(traced == Err(9), replayed.answer == 9, "trace and replay see one form");
    replayed.answer != 9
}

#[test]
fn every_value_in_every_replica() {
    let mut random = Random::new(settings::seed());
    let mut met = BTreeMap::new();
    for run in 0..14 {
        let words = well_formed(&mut random, 2 + run % 7);
        let view = View::new(&words);
        let mut state = Triplet::new(&words);
        for (shard, index, number, place) in all_places(view.shards()) {
            for word in values() {
                state.edit(|words| words[place + 3] = word);
                let origin = Origin::of(view, shard, index, number, word);
                let found = is_well_formed(&mut state);
                assert_eq!(found, origin.is_proper(), "{word} in word {}: {origin:?}", place + 3);
                *met.entry(origin).or_insert(0u64) += 1;
            }
            state.edit(|words_now| words_now[place + 3] = words[place + 3]);
        }
    }
    println!("{met:?}");
    assert!(Origin::ALL.iter().all(|origin| met.get(origin) > Some(&20)), "{met:?}");
}

/// Words 4 to 7 are 0 in every replica.
#[test]
fn reserved_words() {
    let mut random = Random::new(settings::seed() + 1);
    for shards in 2..=8 {
        let mut state = Triplet::new(&well_formed(&mut random, shards));
        for (.., place) in all_places(shards) {
            for place in place + 4..place + 8 {
                for word in [1, 2, 16, 1 << 32, 1 << 63, u64::MAX] {
                    state.edit(|words| words[place] = word);
                    assert!(!is_well_formed(&mut state), "{word} in word {place}");
                }
                state.edit(|words| words[place] = 0);
            }
        }
        assert!(is_well_formed(&mut state));
    }
}

/// Whether an origin of the next index names a host.
fn is_named(view: View, Seat { shard, index, host }: Seat) -> bool {
    index < view.installed(shard)
        && view.replicas(shard, index + 1).any(|replica| replica.origin() == host + 1)
}

/// Changes each replica in turn; the state stays well-formed just where no origin names the replica.
fn lose_each(seed: u64, lose: impl Fn(&mut [u64], Seat, usize) -> bool) {
    let mut random = Random::new(seed);
    let mut found = [0u64; 2];
    for run in 0..300 {
        let words = well_formed(&mut random, 2 + run % 7);
        let view = View::new(&words);
        for (shard, index, number, place) in all_places(view.shards()) {
            let Some(replica) = view.replicas(shard, index).nth(number) else {
                continue;
            };
            let seat = Seat { shard, index, host: replica.host };
            let mut changed = words.clone();
            if lose(&mut changed, seat, place) {
                let kept = is_well_formed(&mut Triplet::new(&changed));
                assert_eq!(kept, !is_named(view, seat), "{seat:?}");
                found[usize::from(kept)] += 1;
            }
        }
    }
    println!("{} states out of form, {} well-formed", found[0], found[1]);
    assert!(found[0] > 1_000 && found[1] > 1_000);
}

/// A replica becomes pending.
#[test]
fn sources_that_are_pending() {
    lose_each(settings::seed() + 2, |words, seat, place| {
        words[place..][..64].fill(0);
        words[place] = PENDING;
        seat.index > 1
    });
}

/// A member becomes another host, in the same place.
#[test]
fn sources_that_are_no_members() {
    lose_each(settings::seed() + 3, |words, Seat { shard, index, host }, _| {
        let head = &mut words[shard as usize * SHARD_WORDS..][..64];
        let (members, other) = (head[1 + index as usize], host ^ 1);
        head[1 + index as usize] ^= 1 << host | 1 << other;
        if head[9 + index as usize] == host {
            head[9 + index as usize] = other;
        }
        members >> other & 1 == 0
    });
}
