//! What is timed: name tables of a given size, messages, batches of them, and an input of 64 KiB for the listing.

use second::name_table::{Entry, GROUP, PLAYER};
use second::operation::Operation;
use second::replica::Replica;

/// So many entries, every eighth a group, with these memberships; the first player is host.
pub fn replica(entries: u32, memberships: usize) -> Replica {
    let is_group = |id: u32| id.is_multiple_of(8);
    let entry = |id: u32| Entry {
        kind: if is_group(id) { GROUP } else { PLAYER },
        id,
        owner: 0,
        flags: 0x100,
        version: id,
        dnet_version: 7,
        name: Vec::new(),
    };
    let groups = (1..=entries).filter(|id| is_group(*id));
    let players = || (1..=entries).filter(|id| !is_group(*id));
    let pairs = groups.flat_map(|group| players().map(move |player| (group, player)));
    let made = Replica {
        version: 100,
        host: 1,
        entries: (1..=entries).map(entry).collect(),
        memberships: pairs.take(memberships).collect(),
        pending: Vec::new(),
    };
    assert!(made.is_valid() && made.memberships.len() == memberships);
    made
}

/// The same with 31 operations that wait, players that come and go, so that the next version lets all of them pass.
pub fn waiting(mut made: Replica) -> Replica {
    for version in made.version + 2..=made.version + 32 {
        let id = 1_000 + version / 2;
        made.pending.push(if version.is_multiple_of(2) {
            Operation::AddEntry(Entry {
                kind: PLAYER,
                id,
                owner: 0,
                flags: 0x100,
                version,
                dnet_version: 7,
                name: Vec::new(),
            })
        } else {
            Operation::DestroyEntry {
                version,
                kind: PLAYER,
                id,
            }
        });
    }
    assert!(made.is_valid());
    made
}

/// A name as a seat has one, of 10 units.
fn name(id: u32) -> Vec<u16> {
    format!("Pilot {:04}", id % 10_000).encode_utf16().collect()
}

/// The same with a name for each entry, and for each player that is to come.
pub fn named(mut made: Replica) -> Replica {
    for entry in &mut made.entries {
        entry.name = name(entry.id);
    }
    for operation in &mut made.pending {
        if let Operation::AddEntry(entry) = operation {
            entry.name = name(entry.id);
        }
    }
    assert!(made.is_valid());
    made
}

/// 0xD0 with a name alone.
pub fn add_named(id: u32, version: u32) -> Vec<u8> {
    let units = name(id);
    let size = 2 * units.len() as u32 + 2;
    let mut m = words(&[0xD0, id, 0, 0x100, version, 0, 7, 48, size, 0, 0, 0, 0]);
    m.extend(units.iter().chain(&[0]).flat_map(|unit| unit.to_le_bytes()));
    m
}

/// 0xD0 without fields.
pub fn add_player(id: u32, version: u32) -> Vec<u8> {
    words(&[0xD0, id, 0, 0x100, version, 0, 7, 0, 0, 0, 0, 0, 0])
}

pub fn destroy_player(id: u32, version: u32) -> Vec<u8> {
    words(&[0xD1, id, version, 0, 1])
}

pub fn request(group: u32, player: u32) -> Vec<u8> {
    words(&[0xD3, 9, group, player])
}

/// 0xD7 without fields.
pub fn create_group(id: u32, version: u32) -> Vec<u8> {
    words(&[0xD7, 1, 9, id, 1, 0x10, version, 0, 7, 0, 0, 0, 0, 0, 0])
}

pub fn destroy_group(id: u32, version: u32) -> Vec<u8> {
    words(&[0xD8, id, version, 0, 1, 9])
}

pub fn add_to_group(group: u32, player: u32, version: u32) -> Vec<u8> {
    words(&[0xD9, group, player, version, 0, 0, 0])
}

pub fn delete_from_group(group: u32, player: u32, version: u32) -> Vec<u8> {
    words(&[0xDA, group, player, version, 0, 0, 0])
}

fn words(values: &[u32]) -> Vec<u8> {
    values
        .iter()
        .flat_map(|value| value.to_le_bytes())
        .collect()
}

/// How many messages a batch has.
pub const BATCH: u32 = 64;

/// How a player is added, without a name or with one.
pub type Add = fn(u32, u32) -> Vec<u8>;

/// All are applied: in turn the newest player leaves and another comes.
pub fn leaving_and_coming(start: &Replica, add: Add) -> Vec<Vec<u8>> {
    let mut players = start.entries.iter().filter(|e| e.kind == PLAYER);
    let mut newest = players.next_back().expect("a player").id;
    let mut list = Vec::new();
    for version in (start.version + 1..).step_by(2).take(BATCH as usize / 2) {
        list.push(destroy_player(newest, version));
        newest = 1_000 + version;
        list.push(add(newest, version + 1));
    }
    list
}

/// All are refused with 14.
pub fn late(start: &Replica) -> Vec<Vec<u8>> {
    let versions = start.version - BATCH + 1..=start.version;
    versions.map(|version| add_player(900, version)).collect()
}

pub fn framed(list: &[Vec<u8>]) -> Vec<u8> {
    let mut input = Vec::new();
    list.iter().for_each(|m| frame(&mut input, m));
    input
}

/// A name of 15 characters, 32 bytes of data, a URL of 20 bytes, each with its terminator where it has one.
pub struct Fields {
    pub name: Vec<u8>,
    pub data: Vec<u8>,
    pub url: Vec<u8>,
}

pub fn fields() -> Fields {
    let name = "Pilot Instructor".encode_utf16().take(15).chain([0]);
    Fields {
        name: name.flat_map(u16::to_le_bytes).collect(),
        data: (0..32).collect(),
        url: b"x-directplay:/seat/1\0".to_vec(),
    }
}

/// A snapshot, then messages to the very limit: players that come, join a group and go, one message in four before its turn, and
/// now and then an old one that is refused.
pub fn listing_input(start: &Replica, add: Add) -> Vec<u8> {
    let mut buffer = [0; dp8::SNAPSHOT];
    let written = second::snapshot::write(start, &mut buffer).written;
    let mut input = buffer[..written].to_vec();
    let mut version = start.version;
    while input.len() + 400 < 65_536 {
        version += 4;
        let id = 1_000 + version;
        frame(&mut input, &add(id, version - 3));
        frame(&mut input, &destroy_player(id, version - 1));
        frame(&mut input, &add_to_group(8, id, version - 2));
        frame(&mut input, &add_to_group(8, id, version));
        if version.is_multiple_of(3) {
            frame(&mut input, &destroy_player(id, version - 9));
        }
    }
    let left = 65_536 - 4 - input.len();
    frame(&mut input, &vec![0; left]);
    assert_eq!(input.len(), 65_536);
    input
}

fn frame(input: &mut Vec<u8>, m: &[u8]) {
    input.extend((m.len() as u32).to_be_bytes());
    input.extend_from_slice(m);
}
