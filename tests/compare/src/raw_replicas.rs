//! Damage that only C's places can show: counts, unused words, acts, kinds and versions of pending operations. Names and operations that
//! are wrong in one thing are in `wrong_names` and `wrong_operations`; here they are damaged along with the rest.

use crate::bridge::UNUSED;
use dp8::{Name, Operation, Replica};
use dp8::{ADD_ENTRY, ENTRIES, JOIN, LEAVE, MEMBERSHIPS, PENDING, REMOVE_ENTRY};
use second::random::Rng;

const ACTS: [u32; 4] = [ADD_ENTRY, REMOVE_ENTRY, JOIN, LEAVE];

/// Changes one thing; most replicas are not valid any more.
pub fn damage_raw(rng: &mut Rng, mut replica: Replica) -> Replica {
    match rng.below(16) {
        0..=1 => replica.entry_count = wrong_count(rng, replica.entry_count, ENTRIES),
        2..=3 => replica.membership_count = wrong_count(rng, replica.membership_count, MEMBERSHIPS),
        4..=5 => put_in_entry(rng, &mut replica),
        6..=7 => put_in_membership(rng, &mut replica),
        8..=9 => put_in_unused_pending(rng, &mut replica),
        10..=13 => damage_pending(rng, &mut replica),
        14 => {
            replica.version =
                replica
                    .version
                    .wrapping_add(rng.pick(&[1, 2, 31, u32::MAX, u32::MAX - 1]))
        }
        _ => replica = noise(rng),
    }
    replica
}

/// One off, over the limit, or equal to the right count in its low 8 or 16 bits.
fn wrong_count(rng: &mut Rng, count: u32, limit: usize) -> u32 {
    let limit = limit as u32;
    let near = [count.wrapping_sub(1), count + 1, 0, limit, limit + 1];
    match rng.below(3) {
        0 => rng.pick(&near),
        1 => with_high_bit(rng, count),
        _ => rng.pick(&[
            limit + 1,
            255,
            256,
            65_535,
            65_536,
            i32::MAX as u32,
            u32::MAX,
        ]),
    }
}

/// Equal in its low 8, 16 or more bits.
fn with_high_bit(rng: &mut Rng, word: u32) -> u32 {
    word ^ (1 << rng.pick(&[8, 16, 24, 31]))
}

/// A word that is not 0, small or with few bits set.
fn some_word(rng: &mut Rng) -> u32 {
    rng.pick(&[1, 2, 0x100, 0x1_0000, 0x8000_0000, u32::MAX])
}

/// One word of an entry, used or unused.
fn put_in_entry(rng: &mut Rng, replica: &mut Replica) {
    let place = any_place(rng, replica.used_entries().len(), ENTRIES);
    let word = some_word(rng);
    let e = &mut replica.entries[place];
    match rng.below(9) {
        0 => e.kind = rng.pick(&[0, 1, 2, 3, 128, 255, u32::MAX]),
        6 => e.kind = with_high_bit(rng, e.kind),
        1 => e.id = word,
        2 => e.owner = word,
        3 => e.flags = word,
        4 => e.version = word,
        5 => e.dnet_version = word,
        _ => put_in_name(rng, &mut e.name),
    }
}

/// Its length, or one unit, used or unused.
fn put_in_name(rng: &mut Rng, name: &mut Name) {
    let at = rng.below(name.units.len());
    match rng.below(3) {
        0 => name.length = rng.pick(&[0, 1, 30, 31, 32, 33, 255, 0x1_0000]),
        1 => name.units[at] = 0,
        _ => name.units[at] = some_word(rng) as u16,
    }
}

fn put_in_membership(rng: &mut Rng, replica: &mut Replica) {
    let place = any_place(rng, replica.used_memberships().len(), MEMBERSHIPS);
    let other = replica.memberships[rng.below(MEMBERSHIPS)];
    let m = &mut replica.memberships[place];
    match rng.below(3) {
        0 => m.group = some_word(rng),
        1 => m.player = some_word(rng),
        _ => *m = other,
    }
}

/// The first unused place, the last place, a used one, or any.
fn any_place(rng: &mut Rng, count: usize, limit: usize) -> usize {
    match rng.below(4) {
        0 => count.min(limit - 1),
        1 => limit - 1,
        2 => rng.below(count.max(1)),
        _ => rng.below(limit),
    }
}

/// One word of a place that is unused.
fn put_in_unused_pending(rng: &mut Rng, replica: &mut Replica) {
    let unused: Vec<usize> = (0..PENDING)
        .filter(|k| replica.pending[*k] == UNUSED)
        .collect();
    if unused.is_empty() {
        return damage_pending(rng, replica);
    }
    let place = rng.pick(&unused);
    let right_version = replica.version.wrapping_add(2 + place as u32);
    let p = &mut replica.pending[place];
    match rng.below(7) {
        0 => p.act = rng.pick(&ACTS),
        1 => p.version = right_version,
        2 => p.version = some_word(rng),
        3 => put_in_name(rng, &mut p.name),
        _ => *kept_word(rng, p) = some_word(rng),
    }
}

/// One of the words after act and version.
fn kept_word<'a>(rng: &mut Rng, p: &'a mut Operation) -> &'a mut u32 {
    match rng.below(5) {
        0 => &mut p.kind,
        1 => &mut p.id,
        2 => &mut p.owner,
        3 => &mut p.flags,
        _ => &mut p.dnet_version,
    }
}

/// An operation that is not right: its act, its kind, its version, its place, what it keeps.
fn damage_pending(rng: &mut Rng, replica: &mut Replica) {
    let place = rng.below(PENDING);
    // Near the largest version this wraps, and then no such version can wait.
    let version = replica.version.wrapping_add(2 + place as u32);
    if replica.pending[place] == UNUSED {
        replica.pending[place] = operation(rng, version);
    }
    let other = rng.below(PENDING);
    let p = &mut replica.pending[place];
    match rng.below(18) {
        0 => p.act = rng.pick(&[0, 5, 6, 255, 0xD0, 0xD1, 0xD9, u32::MAX]),
        1 => p.act = rng.pick(&ACTS),
        2 => p.kind = rng.pick(&[0, 1, 2, 3, u32::MAX]),
        10 => p.act = with_high_bit(rng, p.act),
        11 => p.kind = with_high_bit(rng, p.kind),
        3 => p.version = p.version.wrapping_add(rng.pick(&[1, u32::MAX, 32])),
        4 => p.version = rng.pick(&[0, replica.version, replica.version.wrapping_add(1)]),
        5..=6 => replica.pending.swap(place, other),
        7 => replica.pending[other] = replica.pending[place],
        8 => *kept_word(rng, p) = 0,
        9 => {}
        12..=14 => put_in_name(rng, &mut p.name),
        _ => *kept_word(rng, p) = some_word(rng),
    }
}

/// A right one of that version.
fn operation(rng: &mut Rng, version: u32) -> Operation {
    let [act, kind, id, owner, flags, dnet_version] = rng.pick(&[
        [ADD_ENTRY, 1, 5, 0, 0, 7],
        [ADD_ENTRY, 2, 1, 2, 3, 4],
        [REMOVE_ENTRY, 1, 5, 0, 0, 0],
        [REMOVE_ENTRY, 2, 5, 0, 0, 0],
        [JOIN, 0, 5, 6, 0, 0],
        [LEAVE, 0, 5, 6, 0, 0],
    ]);
    Operation {
        act,
        version,
        kind,
        id,
        owner,
        flags,
        dnet_version,
        ..UNUSED
    }
}

/// Any words in every place, with counts that may be right.
pub fn noise(rng: &mut Rng) -> Replica {
    let mut replica = Replica::from(std::array::from_fn(|_| rng.word()));
    replica.entry_count = rng.below(ENTRIES + 1) as u32;
    replica.membership_count = rng.below(MEMBERSHIPS + 1) as u32;
    replica
}
