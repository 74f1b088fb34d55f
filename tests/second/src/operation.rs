//! What is kept of an operation (01 "The station"; 02 A3, A5).

use crate::name_table::{is_kind, is_name, Entry, Name, GROUP, MAX_NAME, PLAYER};
use crate::read::{read, units, EntryInfo, Message, Place};

/// Two operations are the same when all of this is equal. Players and groups
/// differ by kind, so no two types ever keep the same.
#[derive(Clone, Debug, PartialEq, Eq)]
pub enum Operation {
    /// 0xD0 and 0xD7: the entry as it is added, the operation's version its own.
    AddEntry(Entry),
    /// 0xD1 and 0xD8.
    DestroyEntry { version: u32, kind: u32, id: u32 },
    /// 0xD9.
    AddPlayerToGroup {
        version: u32,
        group: u32,
        player: u32,
    },
    /// 0xDA.
    DeletePlayerFromGroup {
        version: u32,
        group: u32,
        player: u32,
    },
}

impl Operation {
    /// What is kept of a message; `None` where it is not read, or no operation.
    pub fn in_message(bytes: &[u8]) -> Option<Operation> {
        Operation::kept_of(bytes, &read(bytes).ok()?)
    }

    /// What `message` says, read from the bytes `bytes`; `None` for 0xC1 and 0xD3,
    /// which are no operations.
    pub fn kept_of(bytes: &[u8], message: &Message) -> Option<Operation> {
        match message {
            Message::AddPlayer(m) => Some(Operation::AddEntry(kept_entry(bytes, PLAYER, m))),
            Message::CreateGroup(m) => {
                let entry = kept_entry(bytes, GROUP, &m.entry);
                Some(Operation::AddEntry(entry))
            }
            Message::DestroyPlayer(m) => Some(Operation::DestroyEntry {
                version: m.version,
                kind: PLAYER,
                id: m.dpnid,
            }),
            Message::DestroyGroup(m) => Some(Operation::DestroyEntry {
                version: m.version,
                kind: GROUP,
                id: m.group,
            }),
            Message::AddPlayerToGroup(m) => Some(Operation::AddPlayerToGroup {
                version: m.version,
                group: m.group,
                player: m.player,
            }),
            Message::DeletePlayerFromGroup(m) => Some(Operation::DeletePlayerFromGroup {
                version: m.version,
                group: m.group,
                player: m.player,
            }),
            Message::ConnectInfo(_) | Message::RequestAddPlayerToGroup(_) => None,
        }
    }

    pub fn version(&self) -> u32 {
        match self {
            Operation::AddEntry(entry) => entry.version,
            Operation::DestroyEntry { version, .. }
            | Operation::AddPlayerToGroup { version, .. }
            | Operation::DeletePlayerFromGroup { version, .. } => *version,
        }
    }

    /// One that a message can say: of a known kind, no id 0 among those kept
    /// (owner is free), and a name that may be kept.
    pub fn is_valid(&self) -> bool {
        match self {
            Operation::AddEntry(entry) => {
                is_kind(entry.kind) && entry.id != 0 && is_name(&entry.name)
            }
            Operation::DestroyEntry { kind, id, .. } => is_kind(*kind) && *id != 0,
            Operation::AddPlayerToGroup { group, player, .. }
            | Operation::DeletePlayerFromGroup { group, player, .. } => *group != 0 && *player != 0,
        }
    }

    /// Empty but for an add: the others keep none.
    pub fn name(&self) -> &[u16] {
        match self {
            Operation::AddEntry(entry) => &entry.name,
            _ => &[],
        }
    }
}

/// The kind comes from the type alone: flags may be anything.
fn kept_entry(bytes: &[u8], kind: u32, info: &EntryInfo) -> Entry {
    Entry {
        kind,
        id: info.dpnid,
        owner: info.owner,
        flags: info.flags,
        version: info.version,
        dnet_version: info.dnet_version,
        name: kept_name(bytes, info.name),
    }
}

/// The first units of a field, its terminator left out.
fn kept_name(bytes: &[u8], place: Place) -> Name {
    let mut name = place.map_or(Name::new(), |part| units(part.of(bytes)));
    name.truncate(MAX_NAME);
    name
}
