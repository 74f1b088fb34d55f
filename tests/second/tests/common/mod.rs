//! Messages and replicas that several tests use.
#![allow(dead_code)]

use second::name_table::{Entry, GROUP, PLAYER};
use second::read::{FieldName, Part};
use second::replay::Step;
use second::replica::{Answer, Replica};
use second::snapshot;

/// Little-endian words, as in messages.
pub fn le(words: &[u32]) -> Vec<u8> {
    words.iter().flat_map(|w| w.to_le_bytes()).collect()
}

/// The fields of 0xC1 in header order, each with the position of its offset
/// word; the plain form has all but the last.
pub const CONNECT_INFO_PAIRS: [(FieldName, usize); 6] = [
    (FieldName::Name, 12),
    (FieldName::Data, 20),
    (FieldName::Password, 28),
    (FieldName::ConnectData, 36),
    (FieldName::Url, 44),
    (FieldName::AlternateAddress, 84),
];

/// Those of 0xD0.
pub const ADD_PLAYER_PAIRS: [(FieldName, usize); 3] = [
    (FieldName::Name, 28),
    (FieldName::Data, 36),
    (FieldName::Url, 44),
];

/// Those of 0xD7.
pub const CREATE_GROUP_PAIRS: [(FieldName, usize); 3] = [
    (FieldName::Name, 36),
    (FieldName::Data, 44),
    (FieldName::Url, 52),
];

/// Well-formed content for each field, no two alike.
pub fn content(which: FieldName) -> &'static [u8] {
    match which {
        FieldName::Name => b"N\0\0\0",
        FieldName::Data => b"D",
        FieldName::Password => b"P\0\0\0",
        FieldName::ConnectData => b"CC",
        FieldName::Url => b"U\0",
        FieldName::AlternateAddress => b"A",
    }
}

/// A present field that is text, of so many characters.
pub fn text_part(start: usize, size: usize, characters: usize) -> Part {
    let characters = Some(characters);
    Part {
        start,
        size,
        characters,
    }
}

/// A present field that is no text.
pub fn free_part(start: usize, size: usize) -> Part {
    let characters = None;
    Part {
        start,
        size,
        characters,
    }
}

/// Offset and size of the pair at a position.
pub fn pair_at(m: &[u8], pair: usize) -> (u32, u32) {
    let word = |at: usize| u32::from_le_bytes([m[at], m[at + 1], m[at + 2], m[at + 3]]);
    (word(pair), word(pair + 4))
}

pub fn put_pair(m: &mut [u8], pair: usize, (offset, size): (u32, u32)) {
    m[pair..pair + 8].copy_from_slice(&le(&[offset, size]));
}

/// Whether one number of a pair is 0 and the other is not.
pub fn is_hollow((offset, size): (u32, u32)) -> bool {
    (offset == 0) != (size == 0)
}

/// 0xD0 with a name alone.
pub fn add_named(id: u32, version: u32, name: &[u16]) -> Vec<u8> {
    let size = 2 * name.len() as u32 + 2;
    let mut m = le(&[0xD0, id, 0, 0, version, 0, 7, 48, size, 0, 0, 0, 0]);
    m.extend(name.iter().chain(&[0]).flat_map(|u| u.to_le_bytes()));
    m
}

/// 0xD0 with no fields.
pub fn add_player(id: u32, version: u32) -> Vec<u8> {
    le(&[0xD0, id, 0, 0, version, 0, 7, 0, 0, 0, 0, 0, 0])
}

pub fn destroy_player(id: u32, version: u32) -> Vec<u8> {
    le(&[0xD1, id, version, 0, 1])
}

/// 0xD7 with a name alone.
pub fn create_named(id: u32, version: u32, name: &[u16]) -> Vec<u8> {
    let size = 2 * name.len() as u32 + 2;
    let mut m = create_group(id, version);
    put_pair(&mut m, 36, (56, size));
    m.extend(name.iter().chain(&[0]).flat_map(|u| u.to_le_bytes()));
    m
}

/// 0xD7 with no fields.
pub fn create_group(id: u32, version: u32) -> Vec<u8> {
    le(&[0xD7, 0, 0, id, 0, 0, version, 0, 7, 0, 0, 0, 0, 0, 0])
}

pub fn destroy_group(id: u32, version: u32) -> Vec<u8> {
    le(&[0xD8, id, version, 0, 0, 0])
}

pub fn delete_player_from_group(group: u32, player: u32, version: u32) -> Vec<u8> {
    le(&[0xDA, group, player, version, 0, 0, 0])
}

pub fn add_player_to_group(group: u32, player: u32, version: u32) -> Vec<u8> {
    le(&[0xD9, group, player, version, 0, 0, 0])
}

pub fn entry(kind: u32, id: u32, version: u32) -> Entry {
    Entry {
        kind,
        id,
        owner: 0,
        flags: 0,
        version,
        dnet_version: 7,
        name: vec![],
    }
}

/// Units of a text, without a terminator.
pub fn units(text: &str) -> Vec<u16> {
    text.encode_utf16().collect()
}

pub fn named_entry(kind: u32, id: u32, version: u32, name: &[u16]) -> Entry {
    Entry {
        name: name.to_vec(),
        ..entry(kind, id, version)
    }
}

/// T of paper 01, "The listing".
pub fn replica_t() -> Replica {
    Replica {
        version: 5,
        host: 100,
        entries: vec![
            entry(PLAYER, 100, 1),
            entry(PLAYER, 200, 3),
            entry(GROUP, 300, 4),
        ],
        memberships: vec![(300, 200)],
        pending: vec![],
    }
}

/// The snapshot of T in format 1, byte for byte.
pub fn nameless_t() -> Vec<u8> {
    let mut bytes = vec![0, 0, 0, 82, 1, 0, 0, 0, 5, 0, 0, 0, 100, 3, 1];
    bytes.extend(entry_bytes(1, [0, 0, 0, 100], 1));
    bytes.extend(entry_bytes(1, [0, 0, 0, 200], 3));
    bytes.extend(entry_bytes(2, [0, 0, 1, 44], 4));
    bytes.extend([0, 0, 1, 44, 0, 0, 0, 200]);
    bytes
}

/// The snapshot of T, byte for byte: a name of no bytes behind each entry.
pub fn snapshot_t() -> Vec<u8> {
    let mut bytes = vec![0, 0, 0, 85, 2, 0, 0, 0, 5, 0, 0, 0, 100, 3, 1];
    bytes.extend(entry_bytes(1, [0, 0, 0, 100], 1));
    bytes.push(0);
    bytes.extend(entry_bytes(1, [0, 0, 0, 200], 3));
    bytes.push(0);
    bytes.extend(entry_bytes(2, [0, 0, 1, 44], 4));
    bytes.push(0);
    bytes.extend([0, 0, 1, 44, 0, 0, 0, 200]);
    bytes
}

fn entry_bytes(kind: u8, id: [u8; 4], version: u8) -> Vec<u8> {
    let mut bytes = vec![kind];
    bytes.extend(id);
    bytes.extend([0, 0, 0, 0, 0, 0, 0, 0]);
    bytes.extend([0, 0, 0, version, 0, 0, 0, 7]);
    bytes
}

/// A replica of 64 players, ids 1 to 64, at version 64.
pub fn full_replica() -> Replica {
    let entries = (1..=64).map(|i| entry(PLAYER, i, i)).collect();
    Replica {
        version: 64,
        entries,
        ..Replica::fresh()
    }
}

/// 4 groups (1 to 4) and 40 players (5 to 44), so many memberships, version 44.
pub fn full_of_memberships(count: usize) -> Replica {
    let kind = |id| if id <= 4 { GROUP } else { PLAYER };
    let entries = (1..=44).map(|id| entry(kind(id), id, id)).collect();
    let pairs = (1..=4).flat_map(|group| (5..=44).map(move |player| (group, player)));
    let memberships = pairs.take(count).collect();
    Replica {
        version: 44,
        host: 0,
        entries,
        memberships,
        pending: vec![],
    }
}

pub fn applied(passed: u32, noops: u32) -> Answer {
    Answer::Applied { passed, noops }
}

pub fn written_snapshot(replica: &Replica) -> Vec<u8> {
    let mut buf = vec![0xAA; 7000];
    let outcome = snapshot::write(replica, &mut buf);
    assert_eq!(outcome.number, 0);
    buf.truncate(outcome.written);
    buf
}

/// The listing's input: a snapshot, then messages in frames.
pub fn framed(snapshot: &[u8], messages: &[Vec<u8>]) -> Vec<u8> {
    let mut input = snapshot.to_vec();
    for m in messages {
        input.extend((m.len() as u32).to_be_bytes());
        input.extend_from_slice(m);
    }
    input
}

/// Takes each step in turn: the answers to all that is delivered, and the number
/// of each step, a delivery's 0.
pub fn take_steps(replica: &mut Replica, steps: &[Step]) -> (Vec<Answer>, Vec<u32>) {
    let (mut answers, mut numbers) = (Vec::new(), Vec::new());
    for step in steps {
        match step {
            Step::Delivery(m) => {
                answers.push(replica.deliver(m));
                numbers.push(0);
            }
            Step::Batch(input, room) => {
                let mut records = vec![Answer::Waits; *room];
                let answer = replica.batch(input, &mut records);
                let count = answer.map_or(0, |batch| batch.count);
                answers.extend(&records[..count]);
                numbers.push(answer.err().unwrap_or(0));
            }
        }
    }
    (answers, numbers)
}
