//! Replicas with a pending operation that C's places can hold and no valid replica has: each is wrong in this one thing. Beside them,
//! those with a right one of each type.

use crate::batches;
use crate::bridge::{is_valid, UNUSED};
use crate::comparison::{Comparison, Verdict};
use crate::replicas::{compare_deliver, compare_other_calls, early_replica};
use dp8::{Operation, Replica, ADD_ENTRY, GROUP, JOIN, LEAVE, PENDING, PLAYER, REMOVE_ENTRY};
use second::random::{self, Rng};

/// How an operation is made wrong, what this is called, and the types it is for.
type Fault = (fn(&mut Rng, &mut Operation), &'static str, &'static [u8]);

const ALL: &[u8] = &[0xD0, 0xD1, 0xD7, 0xD8, 0xD9, 0xDA];
const OF_ENTRIES: &[u8] = &[0xD0, 0xD1, 0xD7, 0xD8];
const OF_PAIRS: &[u8] = &[0xD9, 0xDA];

const FAULTS: [Fault; 11] = [
    (|_, p| p.id = 0, "pending: id 0", ALL),
    (|_, p| p.act = 0, "pending: act 0", ALL),
    (|_, p| p.act = 5, "pending: act 5", ALL),
    (
        |rng, p| p.act ^= 1 << rng.pick(&[8, 16, 24, 31]),
        "pending: an act right in its low byte",
        ALL,
    ),
    (
        |rng, p| p.version = p.version.wrapping_add(rng.pick(&[1, 31, 32, u32::MAX])),
        "pending: in another version's place",
        ALL,
    ),
    (|_, p| p.kind = 0, "pending: kind 0", OF_ENTRIES),
    (|_, p| p.kind = 3, "pending: kind 3", OF_ENTRIES),
    (
        |rng, p| p.kind ^= 1 << rng.pick(&[8, 16, 24, 31]),
        "pending: a kind right in its low byte",
        OF_ENTRIES,
    ),
    (|_, p| p.owner = 0, "pending: player 0", OF_PAIRS),
    (
        |rng, p| p.kind = rng.pick(&[PLAYER, GROUP]),
        "pending: a kind where none may be",
        OF_PAIRS,
    ),
    (
        |rng, p| {
            let word = rng.pick(&[1, 0x100, u32::MAX]);
            match rng.below(3) {
                0 if p.act == REMOVE_ENTRY => p.owner = word,
                1 => p.flags = word,
                _ => p.dnet_version = word,
            }
        },
        "pending: a word where none may be",
        &[0xD1, 0xD8, 0xD9, 0xDA],
    ),
];

/// Puts a right operation of that type, without a name, in any place, which it hands back.
pub fn wait(rng: &mut Rng, replica: &mut Replica, kind: u8) -> usize {
    let any = rng.below(PENDING);
    let place = rng.pick(&[0, PENDING - 1, any]);
    let (act, of_kind) = match kind {
        0xD0 => (ADD_ENTRY, PLAYER),
        0xD7 => (ADD_ENTRY, GROUP),
        0xD1 => (REMOVE_ENTRY, PLAYER),
        0xD8 => (REMOVE_ENTRY, GROUP),
        0xD9 => (JOIN, 0),
        _ => (LEAVE, 0),
    };
    replica.pending[place] = Operation {
        act,
        version: replica.version + 2 + place as u32,
        kind: of_kind,
        id: 5,
        owner: if of_kind == 0 { 6 } else { 0 },
        ..UNUSED
    };
    place
}

/// Every call that takes a replica, on one with a right operation of a type, and with the same wrong in one thing.
pub fn compare_wrong_operation(c: &mut Comparison, rng: &mut Rng) -> Verdict {
    let (fault, event, types) = rng.pick(&FAULTS);
    let kind = rng.pick(types);
    let mut replica = early_replica(rng);
    let place = wait(rng, &mut replica, kind);
    assert!(is_valid(&replica));
    c.typed_event(kind, "pending: right");
    compare_other_calls(c, rng, &replica)?;
    let m = random::operation(rng, replica.version);
    c.messages += 1;
    compare_deliver(c, &mut replica.clone(), &m)?;
    fault(rng, &mut replica.pending[place]);
    assert!(!is_valid(&replica), "{kind:X} {event}");
    c.typed_event(kind, event);
    compare_wrong(c, rng, replica)
}

/// Every call that takes a replica, on one that is not valid.
pub fn compare_wrong(c: &mut Comparison, rng: &mut Rng, mut replica: Replica) -> Verdict {
    compare_other_calls(c, rng, &replica)?;
    batches::compare_damaged(c, rng, replica)?;
    let m = random::operation(rng, replica.version);
    c.messages += 1;
    compare_deliver(c, &mut replica, &m)?;
    Ok(())
}
