//! Seats that callers name, and what they get.

use super::random::Random;
use super::steps::odd_number;
use crate::seat::Seat;
use crate::view::{PENDING, View};

/// A seat of the state mostly, else one that is not there or cannot be.
pub fn any_seat(random: &mut Random, view: View) -> Seat {
    let shard = random.below(view.shards());
    let index = random.within(1..=view.installed(shard));
    let hosts: Vec<u64> = view.hosts(shard, index).collect();
    let seat = Seat { shard, index, host: random.pick(&hosts) };
    match random.below(8) {
        0 => Seat { shard: odd_number(random), ..seat },
        1 => Seat { index: odd_number(random), ..seat },
        2 => Seat { index: random.within(1..=8), ..seat },
        3 => Seat { host: odd_number(random), ..seat },
        4 => Seat { host: random.below(16), ..seat },
        _ => seat,
    }
}

/// Index 0 to 9 and host 0 to 16 of a shard.
pub fn all_seats(shard: u64) -> impl Iterator<Item = Seat> {
    (0..=9).flat_map(move |index| (0..=16).map(move |host| Seat { shard, index, host }))
}

/// The rejection of a seat in a well-formed state: 7, 10 or 11, or 0.
pub fn rejection(view: View, Seat { shard, index, host }: Seat) -> u64 {
    match () {
        _ if shard >= view.shards() || !(1..=8).contains(&index) || host > 15 => 7,
        _ if index > view.installed(shard) => 10,
        _ if view.replica(shard, index, host).is_none() => 11,
        _ => 0,
    }
}

/// Insists that these are the hosts from which a replica of a well-formed state got its history, nearest first: none
/// where it is pending, and else one of each configuration before, which the origin before it names.
pub fn assert_trace(view: View, Seat { shard, index, host }: Seat, hosts: &[u64]) {
    let mut replica = view.replica(shard, index, host).expect("a member");
    let length = if replica.mode() == PENDING { 0 } else { index - 1 };
    assert_eq!(hosts.len() as u64, length, "{hosts:?} of index {index}");
    for &source in hosts {
        assert_eq!(replica.origin(), source + 1, "{hosts:?} of index {index}");
        let before = view.replica(shard, replica.index - 1, source);
        replica = before.expect("a member of the configuration before");
        assert_ne!(replica.mode(), PENDING, "{hosts:?} of index {index}");
    }
}
