//! The eight writers (01 "Fields of varying length", numbers 11 and 12).
//!
//! A writer drafts the message apart, asks the reader about the draft, and
//! copies it only when accepted: a refused writer touches no byte. What the
//! reader cannot tell is refused apart: a given field of no bytes, which it
//! takes for an absent one in 0xC1 (02 A1).

use crate::read::{
    read, ADD_PLAYER, ADD_PLAYER_TO_GROUP, CONNECT_INFO, CREATE_GROUP, DELETE_PLAYER_FROM_GROUP,
    DESTROY_GROUP, DESTROY_PLAYER, MAX_MESSAGE, REQUEST_ADD_PLAYER_TO_GROUP,
};

/// `number` is 0 where accepted, else 11 or 12; `written` is then 0.
#[derive(Clone, Copy, Debug, PartialEq, Eq)]
pub struct Written {
    pub number: u32,
    pub written: usize,
}

#[derive(Clone, Copy, Debug, Default, PartialEq, Eq)]
pub struct ConnectInfoValues {
    pub flags: u32,
    pub dnet_version: u32,
    pub instance_guid: [u8; 16],
    pub application_guid: [u8; 16],
}

#[derive(Clone, Copy, Debug, Default, PartialEq, Eq)]
pub struct ConnectInfoFields<'a> {
    pub alternate_address: Option<&'a [u8]>,
    pub url: Option<&'a [u8]>,
    pub connect_data: Option<&'a [u8]>,
    pub password: Option<&'a [u8]>,
    pub data: Option<&'a [u8]>,
    pub name: Option<&'a [u8]>,
}

/// The entry of a 0xD0 or a 0xD7.
#[derive(Clone, Copy, Debug, Default, PartialEq, Eq)]
pub struct EntryValues {
    pub dpnid: u32,
    pub owner: u32,
    pub flags: u32,
    pub version: u32,
    pub dnet_version: u32,
}

#[derive(Clone, Copy, Debug, Default, PartialEq, Eq)]
pub struct EntryFields<'a> {
    pub url: Option<&'a [u8]>,
    pub data: Option<&'a [u8]>,
    pub name: Option<&'a [u8]>,
}

#[derive(Clone, Copy, Debug, Default, PartialEq, Eq)]
pub struct DestroyPlayerValues {
    pub dpnid: u32,
    pub version: u32,
    pub reason: u32,
}

#[derive(Clone, Copy, Debug, Default, PartialEq, Eq)]
pub struct RequestAddPlayerToGroupValues {
    pub context: u32,
    pub group: u32,
    pub player: u32,
}

#[derive(Clone, Copy, Debug, Default, PartialEq, Eq)]
pub struct CreateGroupValues {
    pub requesting: u32,
    pub context: u32,
    pub entry: EntryValues,
}

#[derive(Clone, Copy, Debug, Default, PartialEq, Eq)]
pub struct DestroyGroupValues {
    pub group: u32,
    pub version: u32,
    pub requesting: u32,
    pub context: u32,
}

/// Of a 0xD9 or a 0xDA.
#[derive(Clone, Copy, Debug, Default, PartialEq, Eq)]
pub struct MembershipValues {
    pub group: u32,
    pub player: u32,
    pub version: u32,
    pub requesting: u32,
    pub context: u32,
}

/// 0xC1, extended form from DNET version 7 on.
pub fn write_connect_info(
    buf: &mut [u8],
    values: &ConnectInfoValues,
    fields: &ConnectInfoFields,
) -> Written {
    let extended = values.dnet_version >= 7;
    if fields.alternate_address.is_some() && !extended {
        return refused(11);
    }
    let mut draft = Draft::new(if extended { 92 } else { 84 });
    draft.words(&[CONNECT_INFO, values.flags, values.dnet_version]);
    draft.bytes[52..68].copy_from_slice(&values.instance_guid);
    draft.bytes[68..84].copy_from_slice(&values.application_guid);
    draft.field(84, fields.alternate_address);
    draft.field(44, fields.url);
    draft.field(36, fields.connect_data);
    draft.field(28, fields.password);
    draft.field(20, fields.data);
    draft.field(12, fields.name);
    draft.hand_over(buf)
}

/// 0xD0.
pub fn write_add_player(buf: &mut [u8], values: &EntryValues, fields: &EntryFields) -> Written {
    entry_draft(&[ADD_PLAYER], values, fields).hand_over(buf)
}

/// 0xD7.
pub fn write_create_group(
    buf: &mut [u8],
    values: &CreateGroupValues,
    fields: &EntryFields,
) -> Written {
    let head = [CREATE_GROUP, values.requesting, values.context];
    entry_draft(&head, &values.entry, fields).hand_over(buf)
}

/// The words before the entry, its six values, the pairs of its three fields.
fn entry_draft(head: &[u32], values: &EntryValues, fields: &EntryFields) -> Draft {
    let own = [
        values.dpnid,
        values.owner,
        values.flags,
        values.version,
        0, // version-not-used
        values.dnet_version,
    ];
    let words = [head, &own].concat();
    let pairs = 4 * words.len();
    let mut draft = Draft::new(pairs + 24);
    draft.words(&words);
    draft.field(pairs + 16, fields.url);
    draft.field(pairs + 8, fields.data);
    draft.field(pairs, fields.name);
    draft
}

/// 0xD1.
pub fn write_destroy_player(buf: &mut [u8], values: &DestroyPlayerValues) -> Written {
    let mut draft = Draft::new(20);
    draft.words(&[
        DESTROY_PLAYER,
        values.dpnid,
        values.version,
        0, // version-not-used
        values.reason,
    ]);
    draft.hand_over(buf)
}

/// 0xD3.
pub fn write_request_add_player_to_group(
    buf: &mut [u8],
    values: &RequestAddPlayerToGroupValues,
) -> Written {
    let mut draft = Draft::new(16);
    draft.words(&[
        REQUEST_ADD_PLAYER_TO_GROUP,
        values.context,
        values.group,
        values.player,
    ]);
    draft.hand_over(buf)
}

/// 0xD8.
pub fn write_destroy_group(buf: &mut [u8], values: &DestroyGroupValues) -> Written {
    let mut draft = Draft::new(24);
    draft.words(&[
        DESTROY_GROUP,
        values.group,
        values.version,
        0, // version-not-used
        values.requesting,
        values.context,
    ]);
    draft.hand_over(buf)
}

/// 0xD9.
pub fn write_add_player_to_group(buf: &mut [u8], values: &MembershipValues) -> Written {
    membership_draft(ADD_PLAYER_TO_GROUP, values).hand_over(buf)
}

/// 0xDA.
pub fn write_delete_player_from_group(buf: &mut [u8], values: &MembershipValues) -> Written {
    membership_draft(DELETE_PLAYER_FROM_GROUP, values).hand_over(buf)
}

fn membership_draft(kind: u32, values: &MembershipValues) -> Draft {
    let mut draft = Draft::new(28);
    draft.words(&[
        kind,
        values.group,
        values.player,
        values.version,
        0, // version-not-used
        values.requesting,
        values.context,
    ]);
    draft
}

fn refused(number: u32) -> Written {
    Written { number, written: 0 }
}

/// A message being put together.
struct Draft {
    bytes: Vec<u8>,
    /// A given field is empty, or longer than any message.
    bad_size: bool,
}

impl Draft {
    /// A fixed part of zero bytes: every field absent.
    fn new(fixed: usize) -> Draft {
        Draft {
            bytes: vec![0; fixed],
            bad_size: false,
        }
    }

    /// Puts words from the first byte on.
    fn words(&mut self, words: &[u32]) {
        for (index, &value) in words.iter().enumerate() {
            self.put(4 * index, value);
        }
    }

    fn put(&mut self, position: usize, value: u32) {
        self.bytes[position..position + 4].copy_from_slice(&value.to_le_bytes());
    }

    /// Appends a present field; `pair` is the position of its offset word.
    fn field(&mut self, pair: usize, content: Option<&[u8]>) {
        let Some(content) = content else { return };
        if content.is_empty() || content.len() > MAX_MESSAGE {
            self.bad_size = true;
            return;
        }
        // At most six fields of at most 16,384 bytes: both words fit 32 bits.
        let offset = self.bytes.len() - 4;
        self.put(pair, offset as u32);
        self.put(pair + 4, content.len() as u32);
        self.bytes.extend_from_slice(content);
    }

    /// 11 before 12, then the copy.
    fn hand_over(&self, buf: &mut [u8]) -> Written {
        let total = self.bytes.len();
        if self.bad_size || read(&self.bytes).is_err() {
            return refused(11);
        }
        if buf.len() < total {
            return refused(12);
        }
        buf[..total].copy_from_slice(&self.bytes);
        Written {
            number: 0,
            written: total,
        }
    }
}
