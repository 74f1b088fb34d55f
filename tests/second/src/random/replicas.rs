//! Random valid replicas, and the snapshot layout of any replica.

use super::messages::id;
use super::names::{longest_name, name};
use super::Rng;
use crate::name_table::{Entry, GROUP, MAX_ENTRIES, MAX_MEMBERSHIPS, PLAYER};
use crate::operation::Operation;
use crate::replica::Replica;

/// A valid replica, with pending operations about half the time.
pub fn replica(rng: &mut Rng) -> Replica {
    let mut made = Replica {
        version: start_version(rng),
        ..Replica::fresh()
    };
    let entries = entry_count(rng);
    add_entries(rng, &mut made, entries);
    let memberships = membership_count(rng);
    add_memberships(rng, &mut made, memberships);
    let players = ids_of(&made, PLAYER);
    if !players.is_empty() && !rng.one_in(3) {
        made.host = rng.pick(&players);
    }
    if rng.one_in(2) {
        add_pending(rng, &mut made);
    }
    made
}

/// A valid replica with as many entries and memberships as there may be, and
/// nothing pending.
pub fn full_replica(rng: &mut Rng) -> Replica {
    let mut made = Replica {
        version: 200,
        ..Replica::fresh()
    };
    while made.memberships.len() < MAX_MEMBERSHIPS {
        made.entries.clear();
        add_entries(rng, &mut made, MAX_ENTRIES);
        add_memberships(rng, &mut made, MAX_MEMBERSHIPS);
    }
    made
}

/// The snapshot layout of any replica, valid or not, put together apart from
/// `snapshot::write`. Kinds, counts and lengths of names must fit a byte.
pub fn name_table_bytes(replica: &Replica) -> Vec<u8> {
    laid_out(replica, 2)
}

/// The same in format 1, which has no names.
pub fn nameless_bytes(replica: &Replica) -> Vec<u8> {
    laid_out(replica, 1)
}

fn laid_out(replica: &Replica, format: u8) -> Vec<u8> {
    let (e, m) = (replica.entries.len(), replica.memberships.len());
    let names: usize = match format {
        1 => 0,
        _ => replica.entries.iter().map(|e| 1 + 2 * e.name.len()).sum(),
    };
    let mut bytes = Vec::from(((11 + 21 * e + names + 8 * m) as u32).to_be_bytes());
    bytes.push(format);
    bytes.extend(replica.version.to_be_bytes());
    bytes.extend(replica.host.to_be_bytes());
    bytes.extend([e as u8, m as u8]);
    for entry in &replica.entries {
        bytes.push(entry.kind as u8);
        for value in [
            entry.id,
            entry.owner,
            entry.flags,
            entry.version,
            entry.dnet_version,
        ] {
            bytes.extend(value.to_be_bytes());
        }
        if format != 1 {
            bytes.push(2 * entry.name.len() as u8);
            for unit in &entry.name {
                bytes.extend([(unit >> 8) as u8, *unit as u8]);
            }
        }
    }
    for (group, player) in &replica.memberships {
        bytes.extend(group.to_be_bytes());
        bytes.extend(player.to_be_bytes());
    }
    bytes
}

fn start_version(rng: &mut Rng) -> u32 {
    let any = rng.word();
    match rng.below(8) {
        0 => rng.below(3) as u32,
        1 => u32::MAX - rng.below(40) as u32,
        2 => any,
        3 => 0x8000_0000 - rng.below(40) as u32,
        _ => rng.between(70, 400) as u32,
    }
}

fn entry_count(rng: &mut Rng) -> usize {
    match rng.below(6) {
        0 => 0,
        1 => rng.between(60, 64),
        2 => 64,
        _ => rng.between(1, 16),
    }
}

fn membership_count(rng: &mut Rng) -> usize {
    match rng.below(4) {
        0 => 128,
        1 => rng.between(124, 128),
        _ => rng.between(0, 12),
    }
}

/// As many entries as wanted, at most 84, as far as there are versions.
pub(super) fn add_entries(rng: &mut Rng, made: &mut Replica, wanted: usize) {
    // Each entry uses up at least one version from 0 to the replica's.
    let count = wanted.min(made.version as usize + 1);
    let mut ids: Vec<u32> = (1..=80).chain([100, 200, 300, u32::MAX]).collect();
    let shuffled_part = if count <= 9 { 9 } else { ids.len() };
    rng.shuffle(&mut ids[..shuffled_part]);
    let versions = entry_versions(rng, made.version, count);
    for (&own_id, version) in ids.iter().zip(versions) {
        let kind = if rng.one_in(3) { GROUP } else { PLAYER };
        made.entries.push(entry(rng, kind, own_id, version));
    }
    if rng.one_in(6) {
        // So that a full one has the longest snapshot there is.
        let all = made.entries.iter_mut();
        all.for_each(|e| e.name = longest_name(rng));
    }
}

/// Rising versions up to the replica's, at its low end or its high end.
fn entry_versions(rng: &mut Rng, current: u32, count: usize) -> Vec<u32> {
    let room = u64::from(current) + 1;
    let span = room.min(count as u64 + 50);
    let lowest = if rng.one_in(2) { 0 } else { room - span };
    let mut versions: Vec<u32> = (lowest..lowest + span).map(|v| v as u32).collect();
    rng.shuffle(&mut versions);
    versions.truncate(count);
    versions.sort();
    versions
}

pub(super) fn entry(rng: &mut Rng, kind: u32, id: u32, version: u32) -> Entry {
    let any = rng.word();
    Entry {
        kind,
        id,
        owner: rng.pick(&[0, 0, 1, any, u32::MAX]),
        flags: rng.pick(&[0, 0, 2, 0x10, any]),
        version,
        dnet_version: rng.pick(&[0, 6, 7, 8, any]),
        name: name(rng),
    }
}

pub(super) fn ids_of(replica: &Replica, kind: u32) -> Vec<u32> {
    let of_kind = replica.entries.iter().filter(|e| e.kind == kind);
    of_kind.map(|e| e.id).collect()
}

/// As many memberships as wanted, as far as there are pairs.
pub(super) fn add_memberships(rng: &mut Rng, made: &mut Replica, wanted: usize) {
    let mut pairs = Vec::new();
    for group in ids_of(made, GROUP) {
        for player in ids_of(made, PLAYER) {
            pairs.push((group, player));
        }
    }
    rng.shuffle(&mut pairs);
    pairs.truncate(wanted);
    pairs.sort();
    made.memberships = pairs;
}

fn add_pending(rng: &mut Rng, made: &mut Replica) {
    let keep_one_in = rng.pick(&[1, 2, 8]);
    let current = u64::from(made.version);
    for version in current + 2..=current + 32 {
        if let Ok(version) = u32::try_from(version) {
            if rng.one_in(keep_one_in) {
                made.pending.push(pending_operation(rng, version));
            }
        }
    }
}

pub(super) fn pending_operation(rng: &mut Rng, version: u32) -> Operation {
    let (id, player) = (id(rng), id(rng));
    let kind = rng.pick(&[PLAYER, GROUP]);
    match rng.below(6) {
        0..=1 => Operation::DestroyEntry { version, kind, id },
        2 => Operation::AddPlayerToGroup {
            version,
            group: id,
            player,
        },
        3 => Operation::DeletePlayerFromGroup {
            version,
            group: id,
            player,
        },
        _ => Operation::AddEntry(Entry {
            kind,
            id,
            owner: rng.below(3) as u32,
            flags: rng.below(3) as u32,
            version,
            dnet_version: 7,
            name: name(rng),
        }),
    }
}
