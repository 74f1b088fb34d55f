//! What a full run must see, besides the numbers of each call.

use std::collections::BTreeMap;
use std::fmt;

/// Once each.
const EVENTS: [&str; 127] = [
    "delivery: applied",
    "delivery: waits",
    "delivery: refused, and every word as it was",
    "delivery: 32 versions passed",
    "delivery: several versions passed, up to a gap",
    "delivery: refused 14 at the largest version",
    "delivery: a no-op among those passed",
    "group: joined, left, and destroyed with a membership",
    "group: joined, left and destroyed by operations that waited for it",
    "group: its id is a player's after it",
    "group: its id was a player's before it",
    "group: destroyed where 64 entries stand, and another fits",
    "group: destroyed where 128 memberships stand, and another fits",
    "group: left where 128 memberships stand, and another fits",
    "batch: no message",
    "batch: no message and no record",
    "batch: as many records as messages",
    "batch: as many records as messages, and cut",
    "batch: records beyond those of the messages stay",
    "batch: not cut",
    "batch: cut in the length word",
    "batch: cut in the message",
    "batch: cut, and the length says 4,294,967,295",
    "batch: cut, and what is there would be applied",
    "batch: a message of no bytes",
    "batch: a message of 16,384 bytes is applied",
    "batch: a message of more than 16,384 bytes",
    "batch: several messages, and all applied",
    "batch: a message waits, and passes within the batch",
    "batch: 32 versions pass with a message",
    "batch: a message is refused, and a later one applied",
    "batch: refused 28 with records enough, and all as it was",
    "batch: refused 28 with too few records, and all as it was",
    "batch: refused 28 of no value of the second implementation",
    "batch: refused 29, and all as it was",
    "batch: refused 29 for one record too few",
    "batch: refused 29 with no record",
    "batch: a name waits, and is an entry's within the batch",
    "batch: a name waits",
    "batch: a name is an entry's",
    "batch: refused 16 with a name",
    "batch: refused 17 with a name",
    "in turn: what waits from one call passes in the next",
    "in turn: a batch refused whole, and a later one delivered",
    "progress: 32 versions, in any order",
    "progress: 32 versions, the last one first",
    "progress: from a replica with pending operations",
    "progress: between refused messages",
    "progress: deliveries and batches mixed",
    "progress: up to the largest version",
    "progress: target reached through operations that were pending",
    "progress: a version left out, and the replica stays below it",
    "progress: a batch refused whole counts for nothing",
    "progress: 33 above, and the last came too early",
    "progress: what came of the next version was too far ahead",
    "writing: room exactly enough",
    "writing: one byte short",
    "next host: none",
    "next host: some",
    "snapshot: longest there is",
    "snapshot: room exactly enough",
    "snapshot: one byte short",
    "snapshot: written with a name",
    "snapshot: entries read from format 1",
    "right snapshot: zero bytes in a name, and no zero unit",
    "right snapshot: a name with the bytes of an id",
    "right snapshot: format 1",
    "right snapshot: format 2",
    "wrong snapshot: an odd length, and 23 comes first",
    "wrong snapshot: a length over 62, and 23 comes first",
    "wrong snapshot: a zero unit, and 23 comes first",
    "wrong snapshot: a kind, and 23 comes first",
    "wrong snapshot: a name of 63 bytes",
    "wrong snapshot: a name of 64 bytes",
    "wrong snapshot: a name of 255 bytes",
    "wrong snapshot: a name of 254 bytes",
    "wrong snapshot: a name of 1 byte",
    "wrong snapshot: a name of 61 bytes",
    "wrong snapshot: a name of 126 bytes",
    "wrong snapshot: a zero unit first",
    "wrong snapshot: a zero unit last",
    "wrong snapshot: the entries end short of the memberships",
    "wrong snapshot: the entries end beyond where the memberships start",
    "wrong snapshot: the last name runs past the end",
    "wrong snapshot: the last length byte is beyond the end",
    "wrong snapshot: an entry of which nothing is there",
    "wrong snapshot: format 0",
    "wrong snapshot: format 3",
    "wrong snapshot: format 255",
    "wrong snapshot: another format",
    "wrong snapshot: one id in the first and the last entry",
    "wrong snapshot: one id in the first two entries",
    "wrong snapshot: one id in the last two entries",
    "wrong snapshot: one id in two entries",
    "wrong snapshot: one with names as format 1",
    "wrong snapshot: one without names as format 2",
    "replica: of no value of the second implementation",
    "wrong name: an entry's of 32 units",
    "wrong name: an entry's of more units than there are",
    "wrong name: an entry's length right in its low byte",
    "wrong name: an entry's with a zero unit first",
    "wrong name: an entry's with a zero unit last",
    "wrong name: an entry's with a unit past its length",
    "wrong name: an entry's with a 32nd unit",
    "wrong name: on an unused place for an operation",
    "wrong name: on an unused place for an entry",
    "listing: cut",
    "listing: not cut",
    "listing: buffer too short",
    "listing: over 65,536 bytes of input",
    "listing: longest there is",
    "listing: no name",
    "listing: a name of 1 character",
    "listing: a name of 16 characters",
    "listing: a name of 30 characters",
    "listing: a name of 31 characters",
    "listing: of format 1, and a name that came after it",
    "listing: a group that came after the snapshot",
    "characters: of no unit",
    "characters: of 31 units",
    "characters: of 32 units",
    "characters: of 33 units",
    "characters: a length right in its low byte",
    "characters: a zero unit",
    "characters: a pair that the length parts",
    "characters: a high half last of all, and a low one behind the name",
    "characters: a pair in two words",
];

/// The types of operations: those that add an entry, that remove one, that change a membership; and all of them.
const ADDS: &[u8] = &[0xD0, 0xD7];
const REMOVALS: &[u8] = &[0xD1, 0xD8];
const CHANGES: &[u8] = &[0xD9, 0xDA];
const OPERATIONS: &[u8] = &[0xD0, 0xD1, 0xD7, 0xD8, 0xD9, 0xDA];

/// Of a message of each of these types.
const TYPED: [(&[u8], &[&str]); 17] = [
    (
        &[0xC1, 0xD0, 0xD1, 0xD3, 0xD7, 0xD8, 0xD9, 0xDA],
        &["read", "refused with 4"],
    ),
    (&[0xD1, 0xD3, 0xD8, 0xD9, 0xDA], &["refused with 5"]),
    (&[0xC1], &["refused with 6"]),
    (&[0xD0, 0xD1, 0xD7, 0xD8], &["refused with 7"]),
    (
        &[0xD3, 0xD9, 0xDA],
        &[
            "refused with 7 for its group",
            "refused with 7 for its player",
        ],
    ),
    (&[0xC1, 0xD3], &["delivery: refused 13"]),
    (
        OPERATIONS,
        &[
            "delivery: applied",
            "delivery: waits",
            "delivery: refused 14",
            "delivery: refused 15",
            "delivery: refused 16",
            "delivery: refused 17",
            "delivery: refused 17, and its twin waits",
            "batch: applied",
            "batch: waits",
            "batch: refused 16",
            "batch: refused 17",
            "sent again: other words that are not kept",
            "sent again: another word that is kept",
            "sent again: its twin",
            "pending: right",
            "pending: id 0",
            "pending: act 0",
            "pending: act 5",
            "pending: an act right in its low byte",
            "pending: in another version's place",
        ],
    ),
    (
        &[0xD0, 0xD1, 0xD7, 0xD8],
        &[
            "pending: kind 0",
            "pending: kind 3",
            "pending: a kind right in its low byte",
        ],
    ),
    (
        CHANGES,
        &["pending: player 0", "pending: a kind where none may be"],
    ),
    (
        &[0xD1, 0xD8, 0xD9, 0xDA],
        &[
            "pending: a word where none may be",
            "wrong name: where none may be",
        ],
    ),
    (
        ADDS,
        &[
            "applied alone: added",
            "added right above the newest: delivered",
            "added right above the newest: drained",
            "added right above the newest: in a batch",
            "refused 28: an entry has its version",
            "no-op alone: no room for a 65th entry",
            "no-op alone: a player has the id",
            "no-op alone: a group has the id",
            "no-op alone: the entry of that id keeps its name",
            "name added: absent",
            "name added: empty",
            "name added: of 1 unit",
            "name added: of 30 units",
            "name added: of 31 units",
            "name added: of 32 units",
            "name added: of 33 units",
            "name added: of 100 units and more",
            "name added: a lone half is kept",
            "name added: a unit with a zero byte",
            "name added: cut between two halves",
            "name added: cut, and no character less",
            "name waits: absent",
            "name waits: empty",
            "name waits: of 1 unit",
            "name waits: of 30 units",
            "name waits: of 31 units",
            "name waits: of 32 units",
            "name waits: of 33 units",
            "name waits: of 100 units and more",
            "name waits: a lone half is kept",
            "name waits: a unit with a zero byte",
            "name waits: cut between two halves",
            "name waits: cut, and no character less",
            "name waits: then it is an entry's",
            "sent again: empty where it was absent",
            "sent again: absent where it was empty",
            "sent again: another unit past what is kept",
            "sent again: another unit right past what is kept",
            "sent again: cut to what is kept",
            "sent again: another unit as the last that is kept",
            "sent again: another first unit",
            "sent again: another unit",
            "sent again: one unit less",
            "sent again: one unit more",
            "sent again: without a name",
            "sent again: the same name, cut",
            "sent again: the same name",
            "wrong name: of 32 units",
            "wrong name: of more units than there are",
            "wrong name: its length right in its low byte",
            "wrong name: a zero unit first",
            "wrong name: a zero unit last",
            "wrong name: a unit past its length",
            "wrong name: a 32nd unit",
        ],
    ),
    (
        REMOVALS,
        &[
            "applied alone: removed with memberships",
            "applied alone: removed, and names behind it move up",
            "no-op alone: no entry has the id",
            "no-op alone: an entry of the other kind has the id",
        ],
    ),
    (&[0xD1], &["applied alone: the host removed"]),
    (&[0xD8], &["no-op alone: the host has the id"]),
    (
        CHANGES,
        &[
            "no-op alone: no entry has the group's id",
            "no-op alone: a player has the group's id",
            "no-op alone: no entry has the player's id",
            "no-op alone: a group has the player's id",
        ],
    ),
    (
        &[0xD9],
        &[
            "applied alone: a membership added",
            "no-op alone: a member already",
            "no-op alone: no room for a 129th membership",
        ],
    ),
    (
        &[0xDA],
        &[
            "applied alone: a membership removed",
            "no-op alone: both are there, and no pair",
        ],
    ),
];

/// Each form with fields, and its fields in header order: a full run must see all `field_events` of each field.
pub const FIELDS: [(&str, &[&str]); 4] = [
    (
        "0xC1 plain",
        &["name", "data", "password", "connect data", "url"],
    ),
    (
        "0xC1 extended",
        &[
            "name",
            "data",
            "password",
            "connect data",
            "url",
            "alternate address",
        ],
    ),
    ("0xD0", &["name", "data", "url"]),
    ("0xD7", &["name", "data", "url"]),
];

/// The fields that 10 can refuse.
const FORMED: [&str; 3] = ["name", "password", "url"];

/// All that can come of a field of a form, in words that end with its name. Where a 0xD0 or a 0xD7 is refused with 8, a 0xC1 is read
/// without the field.
fn field_events(form: &str, field: &str) -> Vec<&'static str> {
    let mut events = vec![
        "read right behind the fixed part, its",
        "refused with 9 one byte before that, for its",
        "refused with 9 for its",
        "refused with 11 for nothing but an empty",
    ];
    if FORMED.contains(&field) {
        events.push("refused with 10 for its");
    }
    if field == "url" {
        events.push("read with no character in its");
        events.push("read with characters in its");
    }
    if form.starts_with("0xD") {
        events.push("refused with 8 for its");
    } else {
        events.push("read with a size alone for its");
        events.push("read with an offset alone for its");
        events.push("read with an offset alone past the end for its");
    }
    events
}

/// The texts of UTF-16 units that are counted, of messages and others: a full run must see all of `HALVES` in each.
const TEXTS: [(&str, &str); 11] = [
    ("0xC1 plain", "name"),
    ("0xC1 plain", "password"),
    ("0xC1 extended", "name"),
    ("0xC1 extended", "password"),
    ("0xD0", "name"),
    ("0xD7", "name"),
    ("entry", "name"),
    ("pending", "name"),
    ("snapshot", "name"),
    ("listing", "name"),
    ("any words", "name"),
];

/// What a text may have of halves of characters; one alone stands beside what is no half.
const HALVES: [&str; 7] = [
    "a pair",
    "a high half alone",
    "a low half alone",
    "a low half before a high one",
    "a high half before a pair",
    "a low half behind a pair",
    "a high half last",
];

/// Which of them a text has.
pub type Halves = [bool; HALVES.len()];

/// How often each was seen, by what it is seen of: nothing, a type, a field of a form, or a text.
#[derive(Default)]
pub struct Events {
    once: BTreeMap<&'static str, u64>,
    typed: BTreeMap<(u8, &'static str), u64>,
    fields: BTreeMap<(&'static str, &'static str, &'static str), u64>,
    halves: BTreeMap<(&'static str, &'static str), [u64; HALVES.len()]>,
}

impl Events {
    pub fn note(&mut self, name: &'static str) {
        assert!(EVENTS.contains(&name), "{name}");
        *self.once.entry(name).or_default() += 1;
    }

    /// Of a message of that type.
    pub fn note_typed(&mut self, kind: u8, name: &'static str) {
        let mut all = typed_events();
        assert!(all.any(|event| event == (kind, name)), "{kind:X} {name}");
        *self.typed.entry((kind, name)).or_default() += 1;
    }

    /// One of the `field_events` of a field.
    pub fn note_field(&mut self, (form, field): (usize, usize), name: &'static str) {
        let (form, field) = (FIELDS[form].0, FIELDS[form].1[field]);
        let known = field_events(form, field).contains(&name);
        assert!(known, "{form} {name} {field}");
        *self.fields.entry((form, name, field)).or_default() += 1;
    }

    /// Those of `HALVES` that a text has.
    pub fn note_halves(&mut self, text: (&'static str, &'static str), found: Halves) {
        assert!(TEXTS.contains(&text), "{text:?}");
        let counts = self.halves.entry(text).or_default();
        for (count, found) in counts.iter_mut().zip(found) {
            *count += u64::from(found);
        }
    }

    /// What a full run should have seen and this one did not.
    pub fn unseen(&self) -> Vec<String> {
        let once = EVENTS.iter().filter(|e| !self.once.contains_key(*e));
        let mut missing: Vec<String> = once.map(|e| e.to_string()).collect();
        let typed = typed_events().filter(|e| !self.typed.contains_key(e));
        missing.extend(typed.map(|(kind, name)| format!("0x{kind:X} {name}")));
        for (form, fields) in FIELDS {
            for field in fields {
                let mut unseen = field_events(form, field);
                unseen.retain(|name| !self.fields.contains_key(&(form, *name, *field)));
                missing.extend(unseen.iter().map(|name| format!("{form} {name} {field}")));
            }
        }
        for text in TEXTS {
            let counts = self.halves.get(&text).copied().unwrap_or_default();
            let unseen = HALVES.iter().zip(counts).filter(|(_, count)| *count == 0);
            missing.extend(unseen.map(|(what, _)| format!("{} {}: {what}", text.0, text.1)));
        }
        missing
    }
}

/// Each type and an event of it.
fn typed_events() -> impl Iterator<Item = (u8, &'static str)> {
    let of_types = |(types, names): (&'static [u8], &'static [&'static str])| {
        let pairs = types.iter();
        pairs.flat_map(move |kind| names.iter().map(move |name| (*kind, *name)))
    };
    TYPED.into_iter().flat_map(of_types)
}

impl fmt::Display for Events {
    fn fmt(&self, f: &mut fmt::Formatter) -> fmt::Result {
        for (name, count) in &self.once {
            writeln!(f, "  {name}: {count}")?;
        }
        for ((kind, name), count) in &self.typed {
            writeln!(f, "  0x{kind:X} {name}: {count}")?;
        }
        for ((form, name, field), count) in &self.fields {
            writeln!(f, "  {form} {name} {field}: {count}")?;
        }
        for ((whose, text), counts) in &self.halves {
            for (what, count) in HALVES.iter().zip(counts) {
                writeln!(f, "  {whose} {text}: {what}: {count}")?;
            }
        }
        Ok(())
    }
}
