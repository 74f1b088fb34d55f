//! How many characters names have: those of a replica of any value, and names of any words. What texts have of halves of characters.

use crate::buffer::Lent;
use crate::comparison::{Call, Comparison, Verdict};
use crate::events::Halves;
use crate::replicas::replica_hex;
use dp8::{Name, Replica, NAME};
use second::characters::of_units;
use second::random::{self, Rng};
use std::hint::black_box;

/// What the second implementation counts: as many units as the name's length says, or all of the array.
fn counted(name: &Name) -> u32 {
    of_units(name.used()) as u32
}

/// The names in every place of a replica, used or not.
fn names(replica: &Replica) -> impl Iterator<Item = &Name> {
    let entries = replica.entries.iter().map(|e| &e.name);
    entries.chain(replica.pending.iter().map(|p| &p.name))
}

/// Each of them, and that the replica stays as it is.
pub fn compare_names(c: &mut Comparison, replica: &Replica) -> Verdict {
    let (lent, same) = (Lent::new(*replica), Lent::new(*replica));
    let lent = black_box(&lent);
    let answers: Vec<u32> = names(&lent.replica).map(Name::characters).collect();
    let expected: Vec<u32> = names(replica).map(counted).collect();
    c.same(
        (Call::NameCharacters, 0),
        || replica_hex(replica),
        (answers, black_box(lent)),
        (expected, &same),
    )?;
    let entries = replica.used_entries().iter();
    note_all(c, "entry", entries.map(|e| e.name.used()));
    note_all(c, "pending", replica.waiting().map(|p| p.name.used()));
    Ok(())
}

/// A name of any words, between others whose every unit is a low half: what stands around it is not counted.
pub fn compare_any_name(c: &mut Comparison, rng: &mut Rng) -> Verdict {
    for _ in 0..8 {
        let low = Name {
            length: 0xDC00_DC00,
            units: [0xDC00; NAME + 1],
        };
        let name = any_name(rng);
        note_name(c, &name);
        let row = black_box([low, name, low]);
        c.same(
            (Call::NameCharacters, 0),
            || format!("{name:x?}"),
            vec![row[1].characters()],
            vec![counted(&name)],
        )?;
    }
    Ok(())
}

/// Of a length that may be, right in its low bits, or of any value; its units may be zero, and the length may part a pair.
fn any_name(rng: &mut Rng) -> Name {
    let (within, any) = (rng.between(0, NAME + 1) as u32, rng.word());
    let edge = rng.pick(&[0, 1, 31, 32, 33, 64, 255, 0x1_0000, u32::MAX]);
    let wrong = within | 1 << rng.pick(&[8, 16, 31]);
    let length = rng.pick(&[within, within, within, edge, wrong, any]);
    let mut units = [0; NAME + 1];
    units.copy_from_slice(&random::units(rng, NAME + 1));
    if rng.one_in(4) {
        units[rng.below(NAME + 1)] = 0;
    }
    if let Some(at) = length.checked_sub(1).filter(|_| rng.one_in(4)) {
        // The first half is the last unit of the length, or of the array.
        let around = units.iter_mut().skip(at.min(NAME as u32) as usize);
        around.zip([0xD83D, 0xDE00]).for_each(|(u, new)| *u = new);
    }
    Name { length, units }
}

/// A test on a name of any words, and what one that passes it is called.
type Kind = (fn(&Name) -> bool, &'static str);

const NAMES: [Kind; 9] = [
    (|n| n.length == 0, "characters: of no unit"),
    (|n| n.length == 31, "characters: of 31 units"),
    (|n| n.length == 32, "characters: of 32 units"),
    (|n| n.length == 33, "characters: of 33 units"),
    (
        |n| n.length > 32 && n.length & 0xFF <= 32,
        "characters: a length right in its low byte",
    ),
    (|n| n.used().contains(&0), "characters: a zero unit"),
    (
        |n| n.length > 0 && is_pair(n, n.length as usize),
        "characters: a pair that the length parts",
    ),
    (
        |n| n.length >= 32 && matches!(n.units[NAME], 0xD800..=0xDBFF),
        "characters: a high half last of all, and a low one behind the name",
    ),
    (
        |n| (2..n.used().len()).step_by(2).any(|at| is_pair(n, at)),
        "characters: a pair in two words",
    ),
];

/// Whether the unit at this place is the second half of a pair.
fn is_pair(name: &Name, at: usize) -> bool {
    let pair = name.units.get(at - 1..=at);
    matches!(pair, Some([0xD800..=0xDBFF, 0xDC00..=0xDFFF]))
}

fn note_name(c: &mut Comparison, name: &Name) {
    for (_, event) in NAMES.iter().filter(|(test, _)| test(name)) {
        c.event(event);
    }
    c.halves_event(("any words", "name"), halves(name.used()));
}

/// Notes what names of one kind have of halves, all of them at once.
pub fn note_all<'a>(
    c: &mut Comparison,
    whose: &'static str,
    names: impl Iterator<Item = &'a [u16]>,
) {
    let mut found = Halves::default();
    for name in names {
        for (found, has) in found.iter_mut().zip(halves(name)) {
            *found |= has;
        }
    }
    c.halves_event((whose, "name"), found);
}

/// Whether each of `HALVES` is among the units of a text.
pub fn halves(units: &[u16]) -> Halves {
    let high = |at: usize| matches!(units.get(at), Some(0xD800..=0xDBFF));
    let low = |at: usize| matches!(units.get(at), Some(0xDC00..=0xDFFF));
    let other = |at: usize| at < units.len() && !high(at) && !low(at);
    let mut found = Halves::default();
    for at in 0..units.len() {
        found[0] |= high(at) && low(at + 1);
        found[1] |= high(at) && other(at + 1);
        found[2] |= other(at) && low(at + 1);
        found[3] |= low(at) && high(at + 1);
        found[4] |= high(at) && high(at + 1) && low(at + 2);
        found[5] |= high(at) && low(at + 1) && low(at + 2);
    }
    found[6] = units.len().checked_sub(1).is_some_and(high);
    found
}
