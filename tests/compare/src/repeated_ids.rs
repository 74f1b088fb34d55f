//! Snapshots in which an id stands twice, and snapshots that only look so.

use crate::named_snapshots::{Draft, Wrong};
use second::random::{self, Rng};

/// An id of which neither half is a zero unit, so that a name may have its bytes.
const IN_A_NAME: u32 = 0x0041_0042;

/// One id in two entries, in either format; once it stands in a name alone.
pub fn repeated_id(rng: &mut Rng, draft: &mut Draft) -> Wrong {
    let last = draft.entries.len() - 1;
    if last == 0 || rng.one_in(6) {
        return id_in_a_name(draft);
    }
    let (first, second, event) = match rng.below(4) {
        0 => (0, 1, "wrong snapshot: one id in the first two entries"),
        1 => (
            last - 1,
            last,
            "wrong snapshot: one id in the last two entries",
        ),
        2 => (
            0,
            last,
            "wrong snapshot: one id in the first and the last entry",
        ),
        _ => {
            let second = rng.between(1, last);
            let first = rng.below(second);
            (first, second, "wrong snapshot: one id in two entries")
        }
    };
    let id = draft.saved.entries[first].id;
    set_id(draft, second, id);
    if rng.one_in(2) {
        return (event, 24, draft.bytes());
    }
    (event, 24, random::nameless_bytes(&draft.saved))
}

/// The first entry has a name with the bytes of its id at its start, where without names the next id would stand. Nothing names the ids,
/// so that all else is right.
fn id_in_a_name(draft: &mut Draft) -> Wrong {
    draft.saved.host = 0;
    draft.at_the_end();
    set_id(draft, 0, IN_A_NAME);
    let first = &mut draft.entries[0];
    first.put_name(8);
    first.name[..4].copy_from_slice(&IN_A_NAME.to_be_bytes());
    let event = "right snapshot: a name with the bytes of an id";
    (event, 0, draft.bytes())
}

fn set_id(draft: &mut Draft, place: usize, id: u32) {
    draft.saved.entries[place].id = id;
    draft.entries[place].values[1..5].copy_from_slice(&id.to_be_bytes());
}
