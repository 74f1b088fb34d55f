//! Groups that come and go: whole lives of them, room that they leave, and each type of operation waiting and sent again.

use crate::bridge::from_second;
use crate::comparison::{Comparison, Verdict};
use crate::names::{any_units, deliver};
use crate::operations::{add, destroy, join, leave, words_of};
use crate::replicas::{compare_other_calls, early_replica};
use dp8::{Answer, Replica, ENTRIES, GROUP, MEMBERSHIPS, PENDING, PLAYER};
use second::random::{self, Rng};

/// No random message names it.
const ID: u32 = 1_000_000;

/// What a message that is applied alone answers.
const DONE: Answer = Answer {
    number: 0,
    passed: 1,
    noops: 0,
};
const NOOP: Answer = Answer { noops: 1, ..DONE };

/// A player and then a group have one id: the group comes when the player is gone, two players join it and leave it, one joins again, it
/// goes with that membership, and a player has the id again. In turn, or with all but the first operation waiting.
pub fn compare_life(c: &mut Comparison, rng: &mut Rng) -> Verdict {
    let mut replica = early_replica(rng);
    replica.pending = [Default::default(); PENDING];
    let (entries, memberships) = (
        replica.used_entries().len(),
        replica.used_memberships().len(),
    );
    if entries + 3 > ENTRIES || memberships + 2 > MEMBERSHIPS {
        return Ok(());
    }
    let start = replica;
    let list = life(rng, next(&replica));
    if rng.one_in(2) {
        for m in &list {
            assert_eq!(deliver(c, &mut replica, m)?, DONE);
        }
        c.event("group: joined, left, and destroyed with a membership");
    } else {
        for m in list[1..].iter().rev() {
            assert_eq!(deliver(c, &mut replica, m)?, Answer::default());
        }
        let passed = list.len() as u32;
        let all = Answer { passed, ..DONE };
        assert_eq!(deliver(c, &mut replica, &list[0])?, all);
        c.event("group: joined, left and destroyed by operations that waited for it");
    }
    c.event("group: its id was a player's before it");
    c.event("group: its id is a player's after it");
    assert_eq!(replica.memberships, start.memberships);
    compare_other_calls(c, rng, &replica)
}

/// Operations of as many versions, from this one on.
fn life(rng: &mut Rng, first: u32) -> Vec<Vec<u8>> {
    let units = any_units(rng);
    let (group, one, other) = (ID, ID + 1, ID + 2);
    let mut versions = first..;
    let mut next = || versions.next().unwrap_or(first);
    vec![
        add(rng, PLAYER, group, next(), Some(&units)),
        add(rng, PLAYER, one, next(), None),
        add(rng, PLAYER, other, next(), Some(&units)),
        destroy(rng, PLAYER, group, next()),
        add(rng, GROUP, group, next(), Some(&units)),
        join(rng, (group, other), next()),
        join(rng, (group, one), next()),
        leave(rng, (group, other), next()),
        leave(rng, (group, one), next()),
        join(rng, (group, one), next()),
        destroy(rng, GROUP, group, next()),
        add(rng, PLAYER, group, next(), None),
    ]
}

/// Where 64 entries and 128 memberships stand, nothing more fits until a group is left or destroyed.
pub fn compare_full(c: &mut Comparison, rng: &mut Rng) -> Verdict {
    let mut replica = from_second(&random::full_replica(rng));
    let group = rng.pick(replica.used_memberships()).group;
    if rng.one_in(2) {
        compare_left(c, rng, &mut replica)?;
    } else {
        compare_destroyed(c, rng, &mut replica, group)?;
    }
    compare_other_calls(c, rng, &replica)
}

fn next(replica: &Replica) -> u32 {
    replica.version + 1
}

/// A pair that is not there, of a group other than this one.
fn new_pair(rng: &mut Rng, replica: &Replica, group: u32) -> (u32, u32) {
    let of_kind = |kind: u32| {
        let used = replica.used_entries().iter();
        let ids = used.filter(|e| e.kind == kind && e.id != group);
        ids.map(|e| e.id).collect::<Vec<u32>>()
    };
    let (groups, players) = (of_kind(GROUP), of_kind(PLAYER));
    loop {
        let pair = (rng.pick(&groups), rng.pick(&players));
        let mut used = replica.used_memberships().iter();
        if !used.any(|m| (m.group, m.player) == pair) {
            return pair;
        }
    }
}

fn compare_left(c: &mut Comparison, rng: &mut Rng, replica: &mut Replica) -> Verdict {
    let pair = new_pair(rng, replica, 0);
    let gone = rng.pick(replica.used_memberships());
    let m = join(rng, pair, next(replica));
    assert_eq!(deliver(c, replica, &m)?, NOOP);
    let m = leave(rng, (gone.group, gone.player), next(replica));
    assert_eq!(deliver(c, replica, &m)?, DONE);
    let m = join(rng, pair, next(replica));
    assert_eq!(deliver(c, replica, &m)?, DONE);
    c.event("group: left where 128 memberships stand, and another fits");
    Ok(())
}

fn compare_destroyed(
    c: &mut Comparison,
    rng: &mut Rng,
    replica: &mut Replica,
    group: u32,
) -> Verdict {
    let pair = new_pair(rng, replica, group);
    let kind = rng.pick(&[PLAYER, GROUP]);
    for expected in [NOOP, DONE] {
        let m = add(rng, kind, ID, next(replica), None);
        assert_eq!(deliver(c, replica, &m)?, expected);
        let m = join(rng, pair, next(replica));
        assert_eq!(deliver(c, replica, &m)?, expected);
        if expected == NOOP {
            let m = destroy(rng, GROUP, group, next(replica));
            assert_eq!(deliver(c, replica, &m)?, DONE);
        }
    }
    c.event("group: destroyed where 64 entries stand, and another fits");
    c.event("group: destroyed where 128 memberships stand, and another fits");
    Ok(())
}

/// An operation waits, and comes again: with other words that are not kept, with another that is, and as its twin.
pub fn compare_sent_again(c: &mut Comparison, rng: &mut Rng) -> Verdict {
    let mut replica = early_replica(rng);
    let place = rng.below(PENDING);
    replica.pending[place] = Default::default();
    let version = replica.version + 2 + place as u32;
    let (kind, units) = (rng.pick(&[PLAYER, GROUP]), any_units(rng));
    let first = match rng.below(4) {
        0 => add(rng, kind, ID, version, Some(&units)),
        1 => destroy(rng, kind, ID, version),
        2 => join(rng, (ID, ID + 1), version),
        _ => leave(rng, (ID, ID + 1), version),
    };
    assert_eq!(deliver(c, &mut replica, &first)?, Answer::default());
    let (kept, not_kept) = words_of(first[0]);
    let (mut same, mut other, mut twin) = (first.clone(), first.clone(), first.clone());
    for at in not_kept {
        same[4 * at + rng.below(4)] ^= 1 << rng.below(8);
    }
    other[4 * rng.pick(kept) + rng.below(4)] ^= 1 << rng.below(8);
    assert!(random::make_twin(&mut twin));
    for (m, number, event) in [
        (same, 16, "sent again: other words that are not kept"),
        (other, 17, "sent again: another word that is kept"),
        (twin, 17, "sent again: its twin"),
    ] {
        assert_eq!(deliver(c, &mut replica, &m)?.number, number, "{event}");
        c.typed_event(m[0], event);
    }
    compare_other_calls(c, rng, &replica)
}
