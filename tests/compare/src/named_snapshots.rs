//! Snapshots that are wrong: where names or their lengths stand, in their format (one taken for the other), in an id (`repeated_ids`).

use crate::repeated_ids::repeated_id;
use dp8::NAME;
use second::name_table::Entry;
use second::random::{self, Rng};
use second::replica::Replica;
use second::snapshot;

/// What a snapshot is wrong in, the number that it must be refused with (0 where it must not be), and its bytes.
pub type Wrong = (&'static str, u32, Vec<u8>);

/// A snapshot in its parts. N and the count of entries are those of the parts.
pub struct Draft {
    format: u8,
    pub saved: Replica,
    pub entries: Vec<EntryParts>,
    memberships: Vec<u8>,
}

pub struct EntryParts {
    pub values: Vec<u8>,
    /// The length byte, that of the name where nothing is wrong.
    length: u8,
    pub name: Vec<u8>,
}

impl EntryParts {
    fn of(e: &Entry) -> EntryParts {
        let words = [e.id, e.owner, e.flags, e.version, e.dnet_version];
        let mut values = vec![e.kind as u8];
        values.extend(words.iter().flat_map(|word| word.to_be_bytes()));
        let name: Vec<u8> = e.name.iter().flat_map(|unit| unit.to_be_bytes()).collect();
        EntryParts {
            values,
            length: name.len() as u8,
            name,
        }
    }

    /// So many bytes; where their count is even, no unit is zero.
    pub fn put_name(&mut self, count: usize) {
        self.length = count as u8;
        self.name = vec![0x41; count];
    }
}

impl Draft {
    /// Of a valid replica; at least one entry has a name of two units or more, the last entry is among these.
    fn any(rng: &mut Rng) -> Draft {
        let mut saved = random::replica(rng);
        while saved.entries.is_empty() {
            saved = random::replica(rng);
        }
        if let Some(last) = saved.entries.last_mut() {
            while last.name.len() < 2 {
                last.name = random::name(rng);
            }
        }
        let pairs = saved.memberships.iter();
        let words = pairs.flat_map(|(group, player)| [*group, *player]);
        Draft {
            format: 2,
            entries: saved.entries.iter().map(EntryParts::of).collect(),
            memberships: words.flat_map(|word| word.to_be_bytes()).collect(),
            saved,
        }
    }

    /// One of the entries with two units or more: the first of them, or the last.
    fn named(&mut self, rng: &mut Rng) -> &mut EntryParts {
        let long = self.entries.iter_mut().filter(|e| e.length >= 4);
        let mut long: Vec<_> = long.collect();
        let place = rng.pick(&[0, long.len() - 1]);
        long.swap_remove(place)
    }

    /// The last entry, and no membership behind it any more.
    pub fn at_the_end(&mut self) -> &mut EntryParts {
        self.memberships.clear();
        self.saved.memberships.clear();
        self.entries.last_mut().expect("a draft has entries")
    }

    pub fn bytes(&self) -> Vec<u8> {
        let mut body = vec![self.format];
        body.extend(self.saved.version.to_be_bytes());
        body.extend(self.saved.host.to_be_bytes());
        body.push(self.entries.len() as u8);
        body.push(self.saved.memberships.len() as u8);
        for e in &self.entries {
            body.extend(&e.values);
            body.push(e.length);
            body.extend(&e.name);
        }
        body.extend(&self.memberships);
        [&(body.len() as u32).to_be_bytes()[..], &body].concat()
    }

    /// Without so many at the end, and N less by as many.
    fn bytes_without(&self, count: usize) -> Vec<u8> {
        let mut bytes = self.bytes();
        bytes.truncate(bytes.len() - count);
        let n = bytes.len() as u32 - 4;
        bytes[..4].copy_from_slice(&n.to_be_bytes());
        bytes
    }
}

pub fn wrong_snapshot(rng: &mut Rng) -> Wrong {
    let mut draft = Draft::any(rng);
    let made = match rng.below(5) {
        0 => wrong_name(rng, &mut draft),
        1 => wrong_end(rng, &mut draft),
        2 => wrong_end_and_name(rng, &mut draft),
        3 => repeated_id(rng, &mut draft),
        _ => wrong_format(rng, &mut draft),
    };
    // So that each is what it is called.
    let answer = snapshot::read(&made.2).err().unwrap_or(0);
    assert_eq!(answer, made.1, "{}", made.0);
    made
}

/// Everything has its place, and a name is wrong; once there is only what looks so.
fn wrong_name(rng: &mut Rng, draft: &mut Draft) -> Wrong {
    let (count, named_so) = rng.pick(&[
        (1, "wrong snapshot: a name of 1 byte"),
        (61, "wrong snapshot: a name of 61 bytes"),
        (63, "wrong snapshot: a name of 63 bytes"),
        (64, "wrong snapshot: a name of 64 bytes"),
        (126, "wrong snapshot: a name of 126 bytes"),
        (254, "wrong snapshot: a name of 254 bytes"),
        (255, "wrong snapshot: a name of 255 bytes"),
    ]);
    let way = rng.below(10);
    let e = draft.named(rng);
    let end = e.name.len();
    let (event, number) = match way {
        0 => {
            e.name[..2].fill(0);
            ("wrong snapshot: a zero unit first", 24)
        }
        1 => {
            e.name[end - 2..].fill(0);
            ("wrong snapshot: a zero unit last", 24)
        }
        2 => {
            e.name[..4].copy_from_slice(&[0x41, 0, 0, 0x41]);
            ("right snapshot: zero bytes in a name, and no zero unit", 0)
        }
        _ => {
            e.put_name(count);
            (named_so, 24)
        }
    };
    (event, number, draft.bytes())
}

/// N is the length, and the entries do not end where it and the counts say.
fn wrong_end(rng: &mut Rng, draft: &mut Draft) -> Wrong {
    let more = rng.between(1, 9);
    let (event, bytes) = match rng.below(5) {
        0 => {
            draft.memberships.extend(vec![0; more]);
            let event = "wrong snapshot: the entries end short of the memberships";
            (event, draft.bytes())
        }
        1 => {
            let event = "wrong snapshot: the entries end beyond where the memberships start";
            (event, draft.bytes_without(more))
        }
        2 => {
            draft.at_the_end().length += more as u8;
            let event = "wrong snapshot: the last name runs past the end";
            (event, draft.bytes())
        }
        3 => {
            let name = draft.at_the_end().name.len();
            let event = "wrong snapshot: the last length byte is beyond the end";
            (event, draft.bytes_without(name + 1))
        }
        _ => {
            draft.at_the_end();
            draft.entries.truncate(63);
            let mut bytes = draft.bytes();
            bytes[13] += 1;
            let event = "wrong snapshot: an entry of which nothing is there";
            (event, bytes)
        }
    };
    (event, 23, bytes)
}

/// Wrong for 23, and in an entry that 24 is for.
fn wrong_end_and_name(rng: &mut Rng, draft: &mut Draft) -> Wrong {
    let event = match rng.below(4) {
        0 => {
            draft.named(rng).put_name(2 * NAME + 3);
            "wrong snapshot: an odd length, and 23 comes first"
        }
        1 => {
            draft.named(rng).put_name(2 * NAME + 2);
            "wrong snapshot: a length over 62, and 23 comes first"
        }
        2 => {
            draft.named(rng).name[..2].fill(0);
            "wrong snapshot: a zero unit, and 23 comes first"
        }
        _ => {
            draft.entries[0].values[0] = 3;
            "wrong snapshot: a kind, and 23 comes first"
        }
    };
    if rng.one_in(2) {
        draft.memberships.push(0);
        (event, 23, draft.bytes())
    } else {
        (event, 23, draft.bytes_without(1))
    }
}

/// The format byte, and the bytes of one format under the other.
fn wrong_format(rng: &mut Rng, draft: &mut Draft) -> Wrong {
    let any = rng.between(4, 254) as u8;
    let (named, nameless) = (draft.bytes(), random::nameless_bytes(&draft.saved));
    let (event, number, mut bytes, format) = match rng.below(8) {
        0 => ("wrong snapshot: format 0", 22, named, 0),
        1 => ("wrong snapshot: format 3", 22, named, 3),
        2 => ("wrong snapshot: format 255", 22, nameless, 255),
        3 => ("wrong snapshot: another format", 22, nameless, any),
        4 => ("right snapshot: format 1", 0, nameless, 1),
        5 => ("right snapshot: format 2", 0, named, 2),
        // In format 2 an entry has at least a byte more than in format 1.
        6 => {
            let event = "wrong snapshot: one with names as format 1";
            (event, 23, named, 1)
        }
        _ => {
            let event = "wrong snapshot: one without names as format 2";
            (event, 23, nameless, 2)
        }
    };
    bytes[4] = format;
    (event, number, bytes)
}
