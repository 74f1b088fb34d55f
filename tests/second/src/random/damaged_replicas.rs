//! Random replicas with a damage: each rule of validity gets broken alone.

use super::messages::id;
use super::names::{set_name, wrong_name};
use super::replicas::{add_entries, add_memberships, entry, ids_of, pending_operation, replica};
use super::Rng;
use crate::name_table::{Entry, GROUP, PLAYER};
use crate::operation::Operation;
use crate::replica::Replica;

/// A replica with one or two damages; most are not valid any more.
/// Kinds, counts and lengths of names still fit a byte.
pub fn damaged_replica(rng: &mut Rng) -> Replica {
    if rng.one_in(10) {
        return overfull_replica(rng);
    }
    let mut made = replica(rng);
    for _ in 0..rng.pick(&[1, 1, 2]) {
        match rng.below(3) {
            0 => damage_entries(rng, &mut made),
            1 => damage_memberships(rng, &mut made),
            _ => damage_rest(rng, &mut made),
        }
    }
    made
}

/// Valid three times in four.
pub fn any_replica(rng: &mut Rng) -> Replica {
    if rng.one_in(4) {
        damaged_replica(rng)
    } else {
        replica(rng)
    }
}

/// At the limits, or over one of them by one or two; all else is valid.
fn overfull_replica(rng: &mut Rng) -> Replica {
    let mut made = Replica {
        version: 200,
        ..Replica::fresh()
    };
    let (entries, memberships) = rng.pick(&[(64, 128), (65, 128), (66, 0), (64, 129), (60, 130)]);
    add_entries(rng, &mut made, entries);
    add_memberships(rng, &mut made, memberships);
    made
}

fn damage_entries(rng: &mut Rng, made: &mut Replica) {
    let count = made.entries.len();
    if count == 0 || rng.one_in(10) {
        let copied = entry(rng, PLAYER, 1, 0);
        return made.entries.resize(rng.between(1, 66), copied);
    }
    let (one, other) = (rng.below(count), rng.below(count));
    let before = one.saturating_sub(1);
    match rng.below(9) {
        0 => made.entries[one].kind = rng.pick(&[0, 3, 255]),
        1 => made.entries[one].kind = 3 - made.entries[one].kind.min(2),
        2 => made.entries[one].id = 0,
        3 => made.entries[one].id = made.entries[other].id,
        4 => made.entries[one].version = made.entries[other].version,
        5 => made.entries[one].version = made.entries[before].version,
        6 => made.entries[count - 1].version = made.version.wrapping_add(rng.below(3) as u32),
        7 => made.entries[one].name = wrong_name(rng),
        _ => made.entries.swap(one, other),
    }
}

fn damage_memberships(rng: &mut Rng, made: &mut Replica) {
    let count = made.memberships.len();
    if count == 0 || rng.one_in(10) {
        return made.memberships.resize(rng.between(1, 130), (2, 1));
    }
    let (one, other) = (rng.below(count), rng.below(count));
    let before = one.saturating_sub(1);
    match rng.below(6) {
        0 => made.memberships[one].0 = id(rng),
        1 => made.memberships[one].1 = id(rng),
        2 => made.memberships[one] = made.memberships[other],
        3 => made.memberships[one] = made.memberships[before],
        4 => made.memberships[one] = (made.memberships[one].1, made.memberships[one].0),
        _ => made.memberships.swap(one, other),
    }
}

fn damage_rest(rng: &mut Rng, made: &mut Replica) {
    let near = made.version.wrapping_add(rng.pick(&[0, 1, 2, 32, 33]));
    match rng.below(9) {
        0 => made.host = id(rng),
        1 => made.host = ids_of(made, GROUP).first().copied().unwrap_or(1),
        2 => made.version = made.version.wrapping_add(rng.pick(&[1, u32::MAX])),
        3 => made.version = made.entries.last().map_or(0, |e| e.version.wrapping_sub(1)),
        4 => made.pending.reverse(),
        5 => made.pending.push(pending_operation(rng, near)),
        6 => wait_with_wrong_name(rng, made),
        7 => wait_with_wrong_kind(rng, made),
        _ => wait_without_id(rng, made),
    }
}

/// A pending operation that keeps an id 0.
fn wait_without_id(rng: &mut Rng, made: &mut Replica) {
    let no_group = rng.one_in(2);
    wait(rng, made, |operation| {
        let chosen = match operation {
            Operation::AddEntry(entry) => &mut entry.id,
            Operation::DestroyEntry { id, .. } => id,
            Operation::AddPlayerToGroup { group, player, .. }
            | Operation::DeletePlayerFromGroup { group, player, .. } => {
                if no_group {
                    group
                } else {
                    player
                }
            }
        };
        *chosen = 0;
        true
    });
}

/// A pending operation that keeps a name which no operation can.
fn wait_with_wrong_name(rng: &mut Rng, made: &mut Replica) {
    let name = wrong_name(rng);
    wait(rng, made, |operation| {
        set_name(operation, name.clone());
        matches!(operation, Operation::AddEntry(_))
    });
}

/// A pending operation on an entry of no kind.
fn wait_with_wrong_kind(rng: &mut Rng, made: &mut Replica) {
    let wrong = rng.pick(&[0, 3, 255]);
    wait(rng, made, |operation| match operation {
        Operation::AddEntry(Entry { kind, .. }) | Operation::DestroyEntry { kind, .. } => {
            *kind = wrong;
            true
        }
        _ => false,
    });
}

/// Puts an operation first, changed; one that cannot be changed so is not taken.
fn wait(rng: &mut Rng, made: &mut Replica, change: impl Fn(&mut Operation) -> bool) {
    let version = made.version.wrapping_add(2);
    let mut operation = pending_operation(rng, version);
    while !change(&mut operation) {
        operation = pending_operation(rng, version);
    }
    made.pending.retain(|p| p.version() != version);
    made.pending.insert(0, operation);
}
