//! Names of 0xD0 and 0xD7, of every length that matters: kept, cut, waiting, sent again with a change, and beside what a no-op or a removal leaves.

use crate::bridge::from_second;
use crate::comparison::{Comparison, Difference, Verdict};
use crate::messages::compare_read;
use crate::operations::add;
use crate::replicas::{compare_deliver, compare_other_calls, starting_replica};
use dp8::{Answer, Replica, GROUP, NAME, PENDING, PLAYER};
use second::characters::of_units;
use second::name_table::Entry;
use second::operation::Operation;
use second::random::{self, Rng};
use second::read::{read, units, FieldName};

/// Units for a message, none of them 0, of a length near every edge.
pub fn any_units(rng: &mut Rng) -> Vec<u16> {
    let any = rng.between(1, 2 * NAME);
    let length = rng.pick(&[0, 0, 1, 2, 9, NAME - 1, NAME, NAME + 1, NAME + 2, any, 500]);
    let mut made = match rng.one_in(2) {
        true => random::units(rng, length),
        false => (0..length).map(|_| rng.word() as u16 | 1).collect(),
    };
    match rng.below(4) {
        0 if length > 0 => made[rng.below(length)] = rng.pick(&[0xD800, 0xDC00, 0x100]),
        1 if length > NAME => (made[NAME - 1], made[NAME]) = (0xD83D, 0xDE00),
        _ => {}
    }
    made
}

/// An operation with a name waits; it comes again, as it was and changed; then every version up to it passes.
pub fn compare_waiting_name(c: &mut Comparison, rng: &mut Rng) -> Verdict {
    let mut replica = from_second(&starting_replica(rng));
    let free: Vec<usize> = (0..PENDING)
        .filter(|k| replica.pending[*k].act == 0)
        .collect();
    if free.is_empty() || replica.version > u32::MAX - 40 {
        return Ok(());
    }
    let place = if rng.one_in(4) {
        rng.pick(&free)
    } else {
        free[0]
    };
    let version = replica.version + 2 + place as u32;
    let kind = rng.pick(&[PLAYER, GROUP]);
    let id = 1_000_000 + rng.below(9) as u32;
    let units = any_units(rng);
    let name = (!units.is_empty() || rng.one_in(2)).then_some(&units[..]);
    let m = add(rng, kind, id, version, name);
    if deliver(c, &mut replica, &m)? != Answer::default() {
        return Ok(());
    }
    for _ in 0..3 {
        let (event, number, changed) = changed(rng, name);
        let m = add(rng, kind, id, version, changed.as_deref());
        let answer = deliver(c, &mut replica, &m)?;
        assert_eq!(answer.number, number, "{event}");
        c.typed_event(m[0], event);
    }
    while replica.version < version {
        let id = random::id(rng);
        let next = add(rng, kind, id, replica.version + 1, Some(&units));
        deliver(c, &mut replica, &next)?;
    }
    compare_other_calls(c, rng, &replica)
}

/// The same name or another one, what an operation that waits answers to it, and what this is called.
fn changed(rng: &mut Rng, name: Option<&[u16]>) -> (&'static str, u32, Option<Vec<u16>>) {
    let units = name.unwrap_or_default();
    let length = units.len();
    let other = |at: usize, bit: u16| {
        let mut made = units.to_vec();
        made[at] ^= if made[at] == bit { bit | 1 } else { bit };
        Some(made)
    };
    let bit = rng.pick(&[2, 0x80, 0x100, 0x8000]);
    let same = name.map(<[u16]>::to_vec);
    match rng.below(9) {
        0 if name.is_none() => ("sent again: empty where it was absent", 16, Some(vec![])),
        0 if length == 0 => ("sent again: absent where it was empty", 16, None),
        0 if length > NAME => (
            "sent again: another unit past what is kept",
            16,
            other(length - 1, bit),
        ),
        1 if length > NAME => (
            "sent again: another unit right past what is kept",
            16,
            other(NAME, bit),
        ),
        2 if length > NAME => (
            "sent again: cut to what is kept",
            16,
            Some(units[..NAME].to_vec()),
        ),
        3 if length >= NAME => (
            "sent again: another unit as the last that is kept",
            17,
            other(NAME - 1, bit),
        ),
        4 if length > 0 => ("sent again: another first unit", 17, other(0, bit)),
        5 if length > 0 => (
            "sent again: another unit",
            17,
            other(rng.below(length.min(NAME)), bit),
        ),
        6 if (1..=NAME).contains(&length) => (
            "sent again: one unit less",
            17,
            Some(units[..length - 1].to_vec()),
        ),
        7 if length < NAME => (
            "sent again: one unit more",
            17,
            Some([units, &[0x41]].concat()),
        ),
        8 if length > 0 => ("sent again: without a name", 17, None),
        _ if length > NAME => ("sent again: the same name, cut", 16, same),
        _ => ("sent again: the same name", 16, same),
    }
}

/// Reads a message and delivers it.
pub fn deliver(c: &mut Comparison, replica: &mut Replica, m: &[u8]) -> Result<Answer, Difference> {
    c.messages += 1;
    compare_read(c, m)?;
    compare_deliver(c, replica, m)
}

/// The whole name of a message, its terminator left out; none where it has none, or is not read.
fn units_of(m: &[u8]) -> Option<Vec<u16>> {
    let part = read(m).ok()?.place(FieldName::Name)?;
    Some(units(part.of(m)))
}

/// A test on a name, and what one that passes it is called where an entry has it at once and where it waits.
type Kind = (fn(Option<&[u16]>) -> bool, [&'static str; 2]);

const NAMES: [Kind; 12] = [
    (
        |name| name.is_none(),
        ["name added: absent", "name waits: absent"],
    ),
    (
        |name| length(name) == Some(0),
        ["name added: empty", "name waits: empty"],
    ),
    (
        |name| length(name) == Some(1),
        ["name added: of 1 unit", "name waits: of 1 unit"],
    ),
    (
        |name| length(name) == Some(30),
        ["name added: of 30 units", "name waits: of 30 units"],
    ),
    (
        |name| length(name) == Some(31),
        ["name added: of 31 units", "name waits: of 31 units"],
    ),
    (
        |name| length(name) == Some(32),
        ["name added: of 32 units", "name waits: of 32 units"],
    ),
    (
        |name| length(name) == Some(33),
        ["name added: of 33 units", "name waits: of 33 units"],
    ),
    (
        |name| length(name) >= Some(100),
        [
            "name added: of 100 units and more",
            "name waits: of 100 units and more",
        ],
    ),
    (
        |name| name.is_some_and(|units| String::from_utf16(kept(units)).is_err()),
        [
            "name added: a lone half is kept",
            "name waits: a lone half is kept",
        ],
    ),
    (
        |name| name.is_some_and(|units| kept(units).iter().any(|unit| unit & 0xFF == 0)),
        [
            "name added: a unit with a zero byte",
            "name waits: a unit with a zero byte",
        ],
    ),
    (
        |name| {
            let around = name.and_then(|units| units.get(NAME - 1..NAME + 1));
            matches!(around, Some([0xD800..=0xDBFF, 0xDC00..=0xDFFF]))
        },
        [
            "name added: cut between two halves",
            "name waits: cut between two halves",
        ],
    ),
    (
        |name| {
            let cut = name.filter(|units| units.len() > NAME);
            cut.is_some_and(|units| of_units(units) == of_units(kept(units)))
        },
        [
            "name added: cut, and no character less",
            "name waits: cut, and no character less",
        ],
    ),
];

fn length(name: Option<&[u16]>) -> Option<usize> {
    name.map(<[u16]>::len)
}

fn kept(units: &[u16]) -> &[u16] {
    &units[..units.len().min(NAME)]
}

/// Notes the name of an entry whose adding was accepted, and names that waited for what was.
pub fn note_names(c: &mut Comparison, before: &Replica, after: &Replica, m: &[u8]) {
    let of_version = |version: u32| after.used_entries().iter().find(|e| e.version == version);
    if let Some(Operation::AddEntry(e)) = Operation::in_message(m) {
        let (added, waits) = (of_version(e.version).is_some(), e.version > after.version);
        let name = units_of(m);
        for (_, events) in NAMES.iter().filter(|(test, _)| test(name.as_deref())) {
            if added || waits {
                c.typed_event(m[0], events[usize::from(waits)]);
            }
        }
    }
    let passed = before.waiting().filter(|p| p.version <= after.version);
    for p in passed.filter(|p| p.name.length > 0) {
        if of_version(p.version).is_some_and(|e| e.name == p.name) {
            let kind = if p.kind == PLAYER { 0xD0 } else { 0xD7 };
            c.typed_event(kind, "name waits: then it is an entry's");
        }
    }
}

/// Notes a no-op that would have changed a name, and a removal that moves names.
pub fn note_unchanged(
    c: &mut Comparison,
    (before, after): (&Replica, &Replica),
    m: &[u8],
    answer: Answer,
) {
    let mut used = before.used_entries().iter();
    let mut keeps = |new: &Entry| used.any(|e| e.id == new.id && e.name.used() != new.name);
    match Operation::in_message(m) {
        Some(Operation::AddEntry(new)) if answer.noops == 1 && keeps(&new) => {
            c.typed_event(m[0], "no-op alone: the entry of that id keeps its name");
        }
        Some(Operation::DestroyEntry { id, .. }) if answer.noops == 0 => {
            let mut used = before.used_entries().iter();
            let gone = used.position(|e| e.id == id).unwrap_or(0);
            let moved = after.used_entries()[gone..].iter();
            let mut places = before.used_entries()[gone..].iter().zip(moved);
            if places.any(|(old, new)| new.name.length > 0 && old.name != new.name) {
                c.typed_event(m[0], "applied alone: removed, and names behind it move up");
            }
        }
        _ => {}
    }
}
