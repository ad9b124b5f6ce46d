//! Steps that are likely to be accepted, and to bring a run forward.

use super::plans::configuration;
use super::random::Random;
use super::temper::Temper;
use crate::step::Step;
use crate::view::{ACTIVE, IMMUTABLE, PENDING, Replica, View, is_issue_for, issue};

/// In a hundred: steps that are kept although nothing speaks for them.
const ANYHOW: u64 = 15;

pub fn likely(random: &mut Random, view: View, temper: &Temper) -> Step {
    for _ in 0..6 {
        let shard = random.below(view.shards());
        let step = match random.weighted(&temper.kinds) {
            0 => add(random, view, shard, temper),
            1 => adopt(random, view, shard),
            2 => learn(random, view, shard),
            3 => wedge(random, view, shard),
            4 => install(random, view, shard),
            5 => inherit(random, view, shard),
            _ => catch_up(random, view, shard),
        };
        if let Some(step) = step {
            return step;
        }
    }
    Step::add(random.below(view.shards()), 1, take(random))
}

/// An installed index, mostly one of the newest.
fn index(random: &mut Random, view: View, shard: u64) -> u64 {
    let installed = view.installed(shard);
    match random.below(10) {
        0..=6 => installed,
        7 | 8 => installed.saturating_sub(1).max(1),
        _ => random.within(1..=installed),
    }
}

/// A member of a configuration for which something holds; anyhow a member now and then.
fn host(
    random: &mut Random,
    view: View,
    shard: u64,
    index: u64,
    wanted: impl Fn(Replica) -> bool,
) -> Option<u64> {
    let all = random.chance(ANYHOW);
    let replicas = view.replicas(shard, index);
    let hosts: Vec<u64> =
        replicas.filter(|&replica| all || wanted(replica)).map(|replica| replica.host).collect();
    random.pick_any(&hosts)
}

fn is_active(replica: Replica) -> bool {
    replica.mode() == ACTIVE
}

fn is_frozen(replica: Replica) -> bool {
    replica.mode() == IMMUTABLE
}

fn orderer(view: View, shard: u64, index: u64) -> Option<Replica> {
    view.replica(shard, index, view.orderer(shard, index))
}

/// An add in the newest configuration with an active orderer.
fn add(random: &mut Random, view: View, shard: u64, temper: &Temper) -> Option<Step> {
    let mut indices = (1..=view.installed(shard)).rev();
    let index = match random.chance(ANYHOW) {
        true => index(random, view, shard),
        false => indices.find(|&index| orderer(view, shard, index).is_some_and(is_active))?,
    };
    let entry = match random.chance(temper.issues) {
        true => new_issue(random, view, shard, index, temper),
        false => take(random),
    };
    Some(Step::add(shard, index, entry))
}

fn take(random: &mut Random) -> u64 {
    match random.below(3) {
        0 => random.within(1..=80),
        1 => random.within(1..=u64::from(u32::MAX)),
        _ => (random.any_width() >> 32).max(1),
    }
}

/// An issue of the next configuration of the shard that this one sequences; a take where that is there already.
fn new_issue(random: &mut Random, view: View, shard: u64, index: u64, temper: &Temper) -> u64 {
    let target = match random.chance(95) {
        true => view.sequenced(shard),
        false => random.below(view.shards()),
    };
    let next = match random.chance(90) {
        true => (view.installed(target) + 1).min(8),
        false => random.within(2..=8),
    };
    let rival = orderer(view, shard, index).is_some_and(|orderer| {
        let mut history = orderer.history().iter();
        history.any(|&entry| is_issue_for(entry, target, next))
    });
    if rival && !random.chance(temper.rivals) {
        return take(random);
    }
    let (members, orderer) = configuration(random);
    issue(next, target, orderer, members)
}

fn adopt(random: &mut Random, view: View, shard: u64) -> Option<Step> {
    let index = index(random, view, shard);
    let orderer = orderer(view, shard, index)?;
    let behind = |replica: Replica| is_active(replica) && replica.history() != orderer.history();
    Some(Step::adopt(shard, index, host(random, view, shard, index, behind)?))
}

/// A learn of what all histories have; now and then of less or more, of places where they are unlike, or of what those
/// have that are not pending.
fn learn(random: &mut Random, view: View, shard: u64) -> Option<Step> {
    let index = index(random, view, shard);
    let all = !random.chance(ANYHOW);
    let replicas = view.replicas(shard, index).filter(|replica| all || replica.mode() != PENDING);
    let histories: Vec<&[u64]> = replicas.map(|replica| replica.history()).collect();
    let common = common_length(&histories)?;
    let shortest = histories.iter().map(|history| history.len()).min()?;
    let can = |replica: Replica| is_active(replica) && replica.stable().len() < shortest;
    let host = host(random, view, shard, index, can)?;
    let stable = view.replica(shard, index, host)?.stable().len() as u64;
    let length = match random.below(8) {
        0 => random.below(57),
        1 => common + 1,
        2..=4 if shortest as u64 > common => random.within(common + 1..=shortest as u64),
        5 if stable < common => random.within(stable + 1..=common),
        _ => common,
    };
    Some(Step::learn(shard, index, host, length))
}

/// How far histories are alike, if there are any.
fn common_length(histories: &[&[u64]]) -> Option<u64> {
    let (first, rest) = histories.split_first()?;
    let common = rest.iter().fold(first.len(), |common, history| {
        let pairs = first.iter().zip(*history);
        common.min(pairs.take_while(|(a, b)| a == b).count())
    });
    Some(common as u64)
}

/// An older replica mostly: a newest configuration without active replicas brings nothing forward.
fn wedge(random: &mut Random, view: View, shard: u64) -> Option<Step> {
    let installed = view.installed(shard);
    let index = match installed > 1 && random.chance(80) {
        true => random.within(1..=installed - 1),
        false => index(random, view, shard),
    };
    wedge_in(random, view, shard, index)
}

/// A wedge of a configuration's active replica.
fn wedge_in(random: &mut Random, view: View, shard: u64, index: u64) -> Option<Step> {
    Some(Step::wedge(shard, index, host(random, view, shard, index, is_active)?))
}

/// An install of a stable issue of the next configuration, or a wedge before it; now and then of any issue.
fn install(random: &mut Random, view: View, shard: u64) -> Option<Step> {
    let sequencer = view.sequencer(shard);
    if random.chance(ANYHOW) {
        let index = index(random, view, sequencer);
        let host = host(random, view, sequencer, index, |_| true)?;
        return Some(Step::install(shard, index, host, random.below(12)));
    }
    let next = match random.chance(90) {
        true => view.installed(shard) + 1,
        false => random.within(2..=8),
    };
    let mut found = Vec::new();
    for replica in view.all_replicas(sequencer) {
        let places = (0..).zip(replica.stable());
        let places = places.filter(|&(_, &entry)| is_issue_for(entry, shard, next));
        found.extend(places.map(|(place, _)| (replica.index, replica.host, place)));
    }
    let (index, host, place) = random.pick_any(&found)?;
    match view.is_newest_wedged(shard) || random.chance(ANYHOW) {
        true => Some(Step::install(shard, index, host, place)),
        false => wedge_in(random, view, shard, view.installed(shard)),
    }
}

/// An inherit by a pending replica, or a wedge before it: of the only source, or of one more, which may be behind.
fn inherit(random: &mut Random, view: View, shard: u64) -> Option<Step> {
    let Some((index, heir)) = pending(random, view, shard) else {
        return anyhow(random, view, shard, Step::inherit);
    };
    let source = host(random, view, shard, index - 1, is_frozen);
    if source.is_none() || random.chance(25) {
        return wedge_in(random, view, shard, index - 1);
    }
    Some(Step::inherit(shard, index, heir, source?))
}

/// A catch-up by a pending replica from a peer, or now and then from any host.
fn catch_up(random: &mut Random, view: View, shard: u64) -> Option<Step> {
    let Some((index, heir)) = pending(random, view, shard) else {
        return anyhow(random, view, shard, Step::catch_up);
    };
    let peer = match random.chance(ANYHOW) {
        true => random.below(16),
        false => host(random, view, shard, index, |peer| peer.mode() != PENDING)?,
    };
    Some(Step::catch_up(shard, index, heir, peer))
}

/// The index and host of a pending replica.
fn pending(random: &mut Random, view: View, shard: u64) -> Option<(u64, u64)> {
    let pending = view.all_replicas(shard).filter(|replica| replica.mode() == PENDING);
    let pending: Vec<(u64, u64)> = pending.map(|replica| (replica.index, replica.host)).collect();
    random.pick_any(&pending)
}

/// A step by which a pending replica would begin, now and then, where none is pending.
fn anyhow(
    random: &mut Random,
    view: View,
    shard: u64,
    begin: fn(u64, u64, u64, u64) -> Step,
) -> Option<Step> {
    let index = index(random, view, shard);
    let host = host(random, view, shard, index, |_| false)?;
    Some(begin(shard, index, host, random.below(16)))
}
