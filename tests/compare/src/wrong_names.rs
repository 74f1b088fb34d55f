//! Replicas with a name that C's places can hold and no valid replica has: each is wrong in this one thing.

use crate::bridge::is_valid;
use crate::comparison::{Comparison, Verdict};
use crate::replicas::early_replica;
use crate::wrong_operations::{compare_wrong, wait};
use dp8::{Name, Replica, ENTRIES, NAME, PENDING};
use second::random::{self, Rng};

/// How a name is made wrong, and what this is called in an entry and in an operation of a type.
type Fault = (fn(&mut Rng, &mut Name), &'static str, &'static str);

const FAULTS: [Fault; 7] = [
    (
        |rng, n| *n = full(rng, 32),
        "wrong name: an entry's of 32 units",
        "wrong name: of 32 units",
    ),
    (
        |rng, n| n.length = rng.pick(&[33, 64, 255, 256, 0x1_0000, u32::MAX]),
        "wrong name: an entry's of more units than there are",
        "wrong name: of more units than there are",
    ),
    (
        |rng, n| n.length ^= 1 << rng.pick(&[8, 16, 24, 31]),
        "wrong name: an entry's length right in its low byte",
        "wrong name: its length right in its low byte",
    ),
    (
        |_, n| n.units[0] = 0,
        "wrong name: an entry's with a zero unit first",
        "wrong name: a zero unit first",
    ),
    (
        |_, n| n.units[n.length as usize - 1] = 0,
        "wrong name: an entry's with a zero unit last",
        "wrong name: a zero unit last",
    ),
    (
        |rng, n| {
            let at = rng.between(n.length as usize, NAME);
            let at = rng.pick(&[n.length as usize, at]);
            n.units[at] = rng.pick(&[1, 0x100, 0xFFFF]);
        },
        "wrong name: an entry's with a unit past its length",
        "wrong name: a unit past its length",
    ),
    (
        |rng, n| n.units[NAME] = rng.pick(&[1, 0x100]),
        "wrong name: an entry's with a 32nd unit",
        "wrong name: a 32nd unit",
    ),
];

/// So many units, none of them 0; with 32 the place of the terminator has one too.
fn full(rng: &mut Rng, length: usize) -> Name {
    let mut made = Name {
        length: length as u32,
        ..Name::default()
    };
    made.units[..length].copy_from_slice(&random::units(rng, length));
    made
}

/// Every call that takes a replica, on one that is wrong in a name alone.
pub fn compare_wrong_name(c: &mut Comparison, rng: &mut Rng) -> Verdict {
    let mut replica = early_replica(rng);
    match rng.below(8) {
        0..=2 => c.event(in_entry(rng, &mut replica)),
        3..=5 => {
            let (kind, event) = in_operation(rng, &mut replica);
            c.typed_event(kind, event);
        }
        6 => {
            let kind = on_operation(rng, &mut replica);
            c.typed_event(kind, "wrong name: where none may be");
        }
        _ => c.event(on_unused_place(rng, &mut replica)),
    }
    assert!(!is_valid(&replica));
    compare_wrong(c, rng, replica)
}

fn in_entry(rng: &mut Rng, replica: &mut Replica) -> &'static str {
    let count = replica.used_entries().len();
    if count == 0 {
        return on_unused_place(rng, replica);
    }
    let (fault, event, _) = rng.pick(&FAULTS);
    let any = rng.below(count);
    let place = rng.pick(&[0, count - 1, any]);
    make_wrong(rng, &mut replica.entries[place].name, fault);
    event
}

/// The type of the operation, and what it is.
fn in_operation(rng: &mut Rng, replica: &mut Replica) -> (u8, &'static str) {
    let (fault, _, event) = rng.pick(&FAULTS);
    let kind = rng.pick(&[0xD0, 0xD7]);
    let place = wait(rng, replica, kind);
    make_wrong(rng, &mut replica.pending[place].name, fault);
    (kind, event)
}

/// A name that may be there, with a unit at least, then the fault.
fn make_wrong(rng: &mut Rng, name: &mut Name, fault: fn(&mut Rng, &mut Name)) {
    let length = rng.pick(&[1, 2, 9, 16, NAME - 1, NAME]);
    *name = full(rng, length);
    fault(rng, name);
}

/// A name, or one word of it, on an operation that keeps none, of the type that is handed back.
fn on_operation(rng: &mut Rng, replica: &mut Replica) -> u8 {
    let kind = rng.pick(&[0xD1, 0xD8, 0xD9, 0xDA]);
    let place = wait(rng, replica, kind);
    put_some(rng, &mut replica.pending[place].name);
    kind
}

/// The same on an unused place.
fn on_unused_place(rng: &mut Rng, replica: &mut Replica) -> &'static str {
    let count = replica.used_entries().len();
    if count < ENTRIES && rng.one_in(2) {
        let place = rng.pick(&[count, ENTRIES - 1]);
        put_some(rng, &mut replica.entries[place].name);
        return "wrong name: on an unused place for an entry";
    }
    let any = rng.below(PENDING);
    let place = rng.pick(&[0, PENDING - 1, any]);
    replica.pending[place] = Default::default();
    put_some(rng, &mut replica.pending[place].name);
    "wrong name: on an unused place for an operation"
}

/// All of a name where there was none, or one word of it.
fn put_some(rng: &mut Rng, name: &mut Name) {
    let at = rng.below(NAME + 1);
    match rng.below(4) {
        0 => *name = full(rng, 3),
        1 => name.length = rng.pick(&[1, 31, 0x100]),
        2 => name.units[rng.pick(&[0, NAME, at])] = 1,
        _ => name.units[at] = 0x100,
    }
}
