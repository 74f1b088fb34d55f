//! Operations aimed at what a replica holds, so that most of them change it or meet one of its limits.

use crate::bridge::from_second;
use crate::comparison::{Comparison, Verdict};
use crate::messages::compare_read;
use crate::names::{any_units, note_unchanged};
use crate::operations::{add, destroy, join, leave};
use crate::replicas::{compare_deliver, compare_other_calls};
use dp8::{Answer, Replica, ENTRIES, GROUP, MEMBERSHIPS, PLAYER};
use second::random::{self, Rng};

/// Operations of the next version, now and then of the one after it.
pub fn compare_aimed_run(c: &mut Comparison, rng: &mut Rng, count: usize) -> Verdict {
    let mut replica = from_second(&random::replica(rng));
    for _ in 0..count {
        let step = if rng.one_in(8) { 2 } else { 1 };
        let m = operation(rng, &replica, replica.version.saturating_add(step));
        c.messages += 1;
        compare_read(c, &m)?;
        let before = replica;
        let answer = compare_deliver(c, &mut replica, &m)?;
        note_change(c, (&before, &replica), &m, answer);
    }
    compare_other_calls(c, rng, &replica)
}

/// An operation of that version that names what the replica holds, for the most part. Groups are destroyed seldom: each of them takes
/// many memberships along.
pub fn operation(rng: &mut Rng, replica: &Replica, version: u32) -> Vec<u8> {
    let (groups, players) = (ids(replica, GROUP), ids(replica, PLAYER));
    let group = some_id(rng, &groups, &players);
    let player = some_id(rng, &players, &groups);
    match rng.below(24) {
        0..=8 => {
            let kind = rng.pick(&[PLAYER, PLAYER, GROUP]);
            let (id, units) = (new_id(rng, replica), any_units(rng));
            let name = (!rng.one_in(4)).then_some(&units[..]);
            add(rng, kind, id, version, name)
        }
        9..=10 => destroy(rng, PLAYER, player, version),
        11 if replica.host != 0 => {
            let kind = rng.pick(&[PLAYER, GROUP]);
            destroy(rng, kind, replica.host, version)
        }
        12 => destroy(rng, GROUP, group, version),
        13..=15 => {
            let pairs = replica.used_memberships();
            let pair = match pairs.is_empty() || rng.one_in(3) {
                true => (group, player),
                false => {
                    let chosen = rng.pick(pairs);
                    (chosen.group, chosen.player)
                }
            };
            leave(rng, pair, version)
        }
        _ => join(rng, (group, player), version),
    }
}

fn ids(replica: &Replica, kind: u32) -> Vec<u32> {
    let used = replica.used_entries().iter();
    used.filter(|e| e.kind == kind).map(|e| e.id).collect()
}

/// One of the first list; now and then of the other, or any.
fn some_id(rng: &mut Rng, ids: &[u32], others: &[u32]) -> u32 {
    let from = if rng.one_in(12) { others } else { ids };
    if from.is_empty() || rng.one_in(30) {
        return random::id(rng);
    }
    rng.pick(from)
}

/// Not in use, for the most part.
fn new_id(rng: &mut Rng, replica: &Replica) -> u32 {
    let used = |id: u32| replica.entries.iter().any(|e| e.id == id);
    let first = rng.between(1, 90) as u32;
    if rng.one_in(10) {
        return first;
    }
    (first..).find(|id| !used(*id)).unwrap_or(first)
}

/// Notes what one operation, applied alone, did, or the one reason for which it did nothing.
fn note_change(
    c: &mut Comparison,
    (before, after): (&Replica, &Replica),
    m: &[u8],
    answer: Answer,
) {
    if answer.passed != 1 {
        return;
    }
    note_unchanged(c, (before, after), m, answer);
    if answer.noops == 1 {
        if let [reason] = reasons(before, m)[..] {
            c.typed_event(m[0], reason);
        }
        return;
    }
    let fewer = after.membership_count < before.membership_count;
    match m[0] {
        0xD0 | 0xD7 => c.typed_event(m[0], "applied alone: added"),
        0xD1 if before.host != after.host => {
            c.typed_event(m[0], "applied alone: the host removed");
        }
        0xD1 | 0xD8 if fewer => c.typed_event(m[0], "applied alone: removed with memberships"),
        0xD9 => c.typed_event(m[0], "applied alone: a membership added"),
        0xDA => c.typed_event(m[0], "applied alone: a membership removed"),
        _ => {}
    }
}

/// Why an operation on a replica is a no-op.
fn reasons(replica: &Replica, m: &[u8]) -> Vec<&'static str> {
    let word = |k: usize| u32::from_le_bytes([m[k], m[k + 1], m[k + 2], m[k + 3]]);
    match m[0] {
        0xD0 => reasons_of_add(replica, word(4)),
        0xD7 => reasons_of_add(replica, word(12)),
        0xD1 => reasons_of_removal(replica, PLAYER, word(4)),
        0xD8 => reasons_of_removal(replica, GROUP, word(4)),
        kind => reasons_of_change(replica, kind == 0xD9, (word(4), word(8))),
    }
}

fn kind_of(replica: &Replica, id: u32) -> Option<u32> {
    let mut used = replica.used_entries().iter();
    used.find(|e| e.id == id).map(|e| e.kind)
}

fn reasons_of_add(replica: &Replica, id: u32) -> Vec<&'static str> {
    let full = replica.used_entries().len() == ENTRIES;
    let mut found = Vec::from_iter(full.then_some("no-op alone: no room for a 65th entry"));
    found.extend(kind_of(replica, id).map(|kind| match kind {
        PLAYER => "no-op alone: a player has the id",
        _ => "no-op alone: a group has the id",
    }));
    found
}

fn reasons_of_removal(replica: &Replica, kind: u32, id: u32) -> Vec<&'static str> {
    vec![match kind_of(replica, id) {
        None => "no-op alone: no entry has the id",
        Some(own) if own == kind => return vec![],
        Some(_) if id == replica.host => "no-op alone: the host has the id",
        Some(_) => "no-op alone: an entry of the other kind has the id",
    }]
}

fn reasons_of_change(
    replica: &Replica,
    joins: bool,
    (group, player): (u32, u32),
) -> Vec<&'static str> {
    let mut found = Vec::new();
    match kind_of(replica, group) {
        None => found.push("no-op alone: no entry has the group's id"),
        Some(PLAYER) => found.push("no-op alone: a player has the group's id"),
        _ => {}
    }
    match kind_of(replica, player) {
        None => found.push("no-op alone: no entry has the player's id"),
        Some(GROUP) => found.push("no-op alone: a group has the player's id"),
        _ => {}
    }
    let mut used = replica.used_memberships().iter();
    let member = used.any(|p| p.group == group && p.player == player);
    let full = replica.used_memberships().len() == MEMBERSHIPS;
    match (joins, member) {
        (true, true) => found.push("no-op alone: a member already"),
        (true, false) if full => found.push("no-op alone: no room for a 129th membership"),
        (false, false) if found.is_empty() => {
            found.push("no-op alone: both are there, and no pair");
        }
        _ => {}
    }
    found
}
