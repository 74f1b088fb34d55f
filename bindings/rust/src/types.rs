//! The structs of include/dp8.h, with their layout.

use std::fmt;

/// 16 bytes of a message, as little-endian words.
#[repr(C)]
#[derive(Clone, Copy, Debug, Default, PartialEq, Eq)]
pub struct Guid {
    pub words: [u32; 4],
}

impl Guid {
    pub fn from_bytes(bytes: [u8; 16]) -> Guid {
        let word =
            |k: usize| u32::from_le_bytes([bytes[k], bytes[k + 1], bytes[k + 2], bytes[k + 3]]);
        Guid {
            words: [word(0), word(4), word(8), word(12)],
        }
    }
}

/// 0xC1, player connect info.
#[repr(C)]
#[derive(Clone, Copy, Debug, Default, PartialEq, Eq)]
pub struct ConnectInfo {
    pub flags: u32,
    pub dnet_version: u32,
    pub instance: Guid,
    pub application: Guid,
}

/// 0xD0, add player.
#[repr(C)]
#[derive(Clone, Copy, Debug, Default, PartialEq, Eq)]
pub struct AddPlayer {
    pub dpnid: u32,
    pub owner: u32,
    pub flags: u32,
    pub version: u32,
    pub dnet_version: u32,
}

/// 0xD1, destroy player.
#[repr(C)]
#[derive(Clone, Copy, Debug, Default, PartialEq, Eq)]
pub struct DestroyPlayer {
    pub dpnid: u32,
    pub version: u32,
    pub reason: u32,
}

/// 0xD3, request: add player to group.
#[repr(C)]
#[derive(Clone, Copy, Debug, Default, PartialEq, Eq)]
pub struct RequestAddToGroup {
    pub context: u32,
    pub group: u32,
    pub player: u32,
}

/// 0xD7, create group.
#[repr(C)]
#[derive(Clone, Copy, Debug, Default, PartialEq, Eq)]
pub struct CreateGroup {
    pub requesting: u32,
    pub context: u32,
    pub dpnid: u32,
    pub owner: u32,
    pub flags: u32,
    pub version: u32,
    pub dnet_version: u32,
}

/// 0xD8, destroy group.
#[repr(C)]
#[derive(Clone, Copy, Debug, Default, PartialEq, Eq)]
pub struct DestroyGroup {
    pub group: u32,
    pub version: u32,
    pub requesting: u32,
    pub context: u32,
}

/// 0xD9, add player to group.
#[repr(C)]
#[derive(Clone, Copy, Debug, Default, PartialEq, Eq)]
pub struct AddToGroup {
    pub group: u32,
    pub player: u32,
    pub version: u32,
    pub requesting: u32,
    pub context: u32,
}

/// 0xDA, delete player from group.
#[repr(C)]
#[derive(Clone, Copy, Debug, Default, PartialEq, Eq)]
pub struct DeleteFromGroup {
    pub group: u32,
    pub player: u32,
    pub version: u32,
    pub requesting: u32,
    pub context: u32,
}

/// The part of a message that holds a field, terminator included, and how many characters a text has, its terminator left out: of a name or
/// a password a high half followed by a low half is one, and so is every other unit, a half alone included; of a URL every byte; 0 of a
/// field that is no text. All zero where the field is absent: in a 0xC1 its offset or its size is 0, in a 0xD0 or a 0xD7 both are.
#[repr(C)]
#[derive(Clone, Copy, Debug, Default, PartialEq, Eq)]
pub struct Part {
    pub present: bool,
    pub start: usize,
    pub size: usize,
    pub characters: usize,
}

impl Part {
    /// The field's bytes in the message that was read; none where it is absent.
    pub fn of<'a>(&self, message: &'a [u8]) -> Option<&'a [u8]> {
        if !self.present {
            return None;
        }
        message.get(self.start..self.start.checked_add(self.size)?)
    }
}

/// How many words the values of a type may have.
pub const VALUES: usize = 10;

/// What a message says, besides its fields.
#[derive(Clone, Copy, Debug, PartialEq, Eq)]
pub enum Values {
    ConnectInfo(ConnectInfo),
    AddPlayer(AddPlayer),
    DestroyPlayer(DestroyPlayer),
    RequestAddToGroup(RequestAddToGroup),
    CreateGroup(CreateGroup),
    DestroyGroup(DestroyGroup),
    AddToGroup(AddToGroup),
    DeleteFromGroup(DeleteFromGroup),
}

/// What reading answers: a refusal's number and all else zero; or number 0, the type, the values of that type, the word that is not
/// used, and the fields. The values are the words of C's union: those of the type's struct, and zeros.
#[repr(C)]
#[derive(Clone, Copy, Debug, Default, PartialEq, Eq)]
pub struct Reading {
    pub number: u32,
    pub message_type: u32,
    pub words: [u32; VALUES],
    pub version_not_used: u32,
    pub name: Part,
    pub data: Part,
    pub password: Part,
    pub connect_data: Part,
    pub url: Part,
    pub alternate_address: Part,
}

impl Reading {
    /// What the message says; none of a refused one.
    pub fn values(&self) -> Option<Values> {
        let w = &self.words;
        let guid = |k: usize| Guid {
            words: [w[k], w[k + 1], w[k + 2], w[k + 3]],
        };
        Some(match self.message_type {
            0xC1 => Values::ConnectInfo(ConnectInfo {
                flags: w[0],
                dnet_version: w[1],
                instance: guid(2),
                application: guid(6),
            }),
            0xD0 => Values::AddPlayer(AddPlayer {
                dpnid: w[0],
                owner: w[1],
                flags: w[2],
                version: w[3],
                dnet_version: w[4],
            }),
            0xD1 => Values::DestroyPlayer(DestroyPlayer {
                dpnid: w[0],
                version: w[1],
                reason: w[2],
            }),
            0xD3 => Values::RequestAddToGroup(RequestAddToGroup {
                context: w[0],
                group: w[1],
                player: w[2],
            }),
            0xD7 => Values::CreateGroup(CreateGroup {
                requesting: w[0],
                context: w[1],
                dpnid: w[2],
                owner: w[3],
                flags: w[4],
                version: w[5],
                dnet_version: w[6],
            }),
            0xD8 => Values::DestroyGroup(DestroyGroup {
                group: w[0],
                version: w[1],
                requesting: w[2],
                context: w[3],
            }),
            0xD9 => Values::AddToGroup(AddToGroup {
                group: w[0],
                player: w[1],
                version: w[2],
                requesting: w[3],
                context: w[4],
            }),
            0xDA => Values::DeleteFromGroup(DeleteFromGroup {
                group: w[0],
                player: w[1],
                version: w[2],
                requesting: w[3],
                context: w[4],
            }),
            _ => return None,
        })
    }

    /// The parts of all fields, in header order.
    pub fn parts(&self) -> [Part; 6] {
        [
            self.name,
            self.data,
            self.password,
            self.connect_data,
            self.url,
            self.alternate_address,
        ]
    }
}

/// What writing answers: number 0 and how many bytes stand at the buffer's start, or the refusal's number and no bytes.
#[repr(C)]
#[derive(Clone, Copy, Debug, Default, PartialEq, Eq)]
pub struct Written {
    pub number: u32,
    pub bytes: usize,
}

/// Which fields of a 0xC1 are given.
#[repr(C)]
#[derive(Clone, Copy, Debug, Default, PartialEq, Eq)]
pub struct ConnectInfoGiven {
    pub name: bool,
    pub data: bool,
    pub password: bool,
    pub connect_data: bool,
    pub url: bool,
    pub alternate_address: bool,
}

/// Which fields of a 0xD0 are given.
#[repr(C)]
#[derive(Clone, Copy, Debug, Default, PartialEq, Eq)]
pub struct AddPlayerGiven {
    pub name: bool,
    pub data: bool,
    pub url: bool,
}

/// Which fields of a 0xD7 are given.
#[repr(C)]
#[derive(Clone, Copy, Debug, Default, PartialEq, Eq)]
pub struct CreateGroupGiven {
    pub name: bool,
    pub data: bool,
    pub url: bool,
}

/// The kinds of an entry.
pub const PLAYER: u32 = 1;
pub const GROUP: u32 = 2;

/// The most units of a name.
pub const NAME: usize = 31;

/// What is kept of the name of a 0xD0 or a 0xD7: its UTF-16 units without the terminator, the first `NAME` of them where there are more, none
/// where the field is absent. The places from `length` on are 0.
#[repr(C)]
#[derive(Clone, Copy, Debug, Default, PartialEq, Eq)]
pub struct Name {
    pub length: u32,
    pub units: [u16; NAME + 1],
}

impl Name {
    /// The units in use, of a name of any value.
    pub fn used(&self) -> &[u16] {
        &self.units[..self.units.len().min(self.length as usize)]
    }
}

/// As text; a half of a character shows as the replacement character.
impl fmt::Display for Name {
    fn fmt(&self, f: &mut fmt::Formatter) -> fmt::Result {
        f.write_str(&String::from_utf16_lossy(self.used()))
    }
}

/// A player or a group of the name table.
#[repr(C)]
#[derive(Clone, Copy, Debug, Default, PartialEq, Eq)]
pub struct Entry {
    pub kind: u32,
    pub id: u32,
    pub owner: u32,
    pub flags: u32,
    pub version: u32,
    pub dnet_version: u32,
    pub name: Name,
}

/// A player's membership in a group.
#[repr(C)]
#[derive(Clone, Copy, Debug, Default, PartialEq, Eq)]
pub struct Membership {
    pub group: u32,
    pub player: u32,
}

/// What an operation does; 0 in an unused place.
pub const ADD_ENTRY: u32 = 1;
pub const REMOVE_ENTRY: u32 = 2;
pub const JOIN: u32 = 3;
pub const LEAVE: u32 = 4;

/// An operation that came early, all zero in an unused place. `ADD_ENTRY` (0xD0, 0xD7) keeps the entry that it adds, `REMOVE_ENTRY`
/// (0xD1, 0xD8) its version, kind and id, `JOIN` (0xD9) and `LEAVE` (0xDA) their version, the group in `id` and the player in `owner`.
#[repr(C)]
#[derive(Clone, Copy, Debug, Default, PartialEq, Eq)]
pub struct Operation {
    pub act: u32,
    pub kind: u32,
    pub id: u32,
    pub owner: u32,
    pub flags: u32,
    pub version: u32,
    pub dnet_version: u32,
    pub name: Name,
}

/// How many entries, memberships and pending operations a replica has places for.
pub const ENTRIES: usize = 64;
pub const MEMBERSHIPS: usize = 128;
pub const PENDING: usize = 31;

/// The words of a name, of an entry and of an operation, and of a whole replica.
pub const NAME_WORDS: usize = 1 + (NAME + 1) / 2;
pub const ENTRY_WORDS: usize = 6 + NAME_WORDS;
pub const OPERATION_WORDS: usize = 7 + NAME_WORDS;
pub const WORDS: usize = 4 + ENTRY_WORDS * ENTRIES + 2 * MEMBERSHIPS + OPERATION_WORDS * PENDING;

/// One seat's copy of the name table, as plain data; the calls change it where it stands. The places beyond each count are zero. Place
/// k of `pending` is for the version k + 2 above the replica's.
#[repr(C)]
#[derive(Clone, Copy, Debug, PartialEq, Eq)]
pub struct Replica {
    pub version: u32,
    pub host: u32,
    pub entry_count: u32,
    pub membership_count: u32,
    pub entries: [Entry; ENTRIES],
    pub memberships: [Membership; MEMBERSHIPS],
    pub pending: [Operation; PENDING],
}

// Two units of a name make a word, the first of them its low half.
#[cfg(target_endian = "big")]
compile_error!("the replica's names are laid out for little-endian machines");

// The library sees these words and no byte more.
const _: () = assert!(size_of::<Replica>() == size_of::<[u32; WORDS]>());

/// What the delivery of a message answers, alone or in a batch: a refusal's number, and all else zero; or 0, with `passed` 0 where the
/// operation waits, else how many versions passed and how many of those operations were no-ops.
#[repr(C)]
#[derive(Clone, Copy, Debug, Default, PartialEq, Eq)]
pub struct Answer {
    pub number: u32,
    pub passed: u32,
    pub noops: u32,
}

/// What a batch answers: number 0, how many messages were delivered, and whether a tail behind them was cut; or 28 or 29, and all else
/// zero.
#[repr(C)]
#[derive(Clone, Copy, Debug, Default, PartialEq, Eq)]
pub struct Batch {
    pub number: u32,
    pub count: usize,
    pub cut: bool,
}

/// The next host: number 28, or 0 and the id, 0 where there is none.
#[repr(C)]
#[derive(Clone, Copy, Debug, Default, PartialEq, Eq)]
pub struct NextHost {
    pub number: u32,
    pub id: u32,
}
