//! The proved DirectPlay 8 name table library (include/dp8.h) with safe functions over slices.
//!
//! A number is 0, or the refusal's number in the table of paper 01 ("Numbers a call may answer"), or 29 of paper 02 (A2). A reference is
//! never null, and what is borrowed to be written overlaps nothing else: this is all that the C interface asks of its caller. No call of it
//! takes more than 4,096 bytes of stack, the listing a replica besides; a value that is handed back here, as a replica, is its caller's.

pub mod ffi;
mod types;

use std::mem::MaybeUninit;
pub use types::*;

/// The most bytes that a snapshot has, and a listing.
pub const SNAPSHOT: usize = 15 + (21 + 1 + 2 * NAME) * ENTRIES + 8 * MEMBERSHIPS;
pub const LISTING: usize = 2304;

/// The fields of a 0xC1 to write; `None` leaves one out, and an empty one is 11.
#[derive(Clone, Copy, Debug, Default, PartialEq, Eq)]
pub struct ConnectInfoFields<'a> {
    pub name: Option<&'a [u8]>,
    pub data: Option<&'a [u8]>,
    pub password: Option<&'a [u8]>,
    pub connect_data: Option<&'a [u8]>,
    pub url: Option<&'a [u8]>,
    pub alternate_address: Option<&'a [u8]>,
}

/// The fields of a 0xD0 or a 0xD7 to write; `None` leaves one out, and an empty one is 11.
#[derive(Clone, Copy, Debug, Default, PartialEq, Eq)]
pub struct EntryFields<'a> {
    pub name: Option<&'a [u8]>,
    pub data: Option<&'a [u8]>,
    pub url: Option<&'a [u8]>,
}

/// The same, under the name that it had before there were groups.
pub type AddPlayerFields<'a> = EntryFields<'a>;

/// Reads a message: numbers 1 to 10, of a 0xC1 never 8.
pub fn read(message: &[u8]) -> Reading {
    // SAFETY: the slice has as many bytes as its length says.
    unsafe { ffi::dp8_read(message.as_ptr(), message.len()) }
}

/// Writes a 0xC1 at the buffer's start: numbers 11 and 12.
pub fn write_connect_info(
    buffer: &mut [u8],
    values: ConnectInfo,
    fields: ConnectInfoFields,
) -> Written {
    let given = ConnectInfoGiven {
        name: fields.name.is_some(),
        data: fields.data.is_some(),
        password: fields.password.is_some(),
        connect_data: fields.connect_data.is_some(),
        url: fields.url.is_some(),
        alternate_address: fields.alternate_address.is_some(),
    };
    let [name, data, password] =
        [fields.name, fields.data, fields.password].map(Option::unwrap_or_default);
    let [connect_data, url, address] =
        [fields.connect_data, fields.url, fields.alternate_address].map(Option::unwrap_or_default);
    // SAFETY: each slice has as many bytes as its length says, and the buffer is borrowed alone.
    unsafe {
        ffi::dp8_write_connect_info(
            buffer.as_mut_ptr(),
            buffer.len(),
            values,
            given,
            name.as_ptr(),
            name.len(),
            data.as_ptr(),
            data.len(),
            password.as_ptr(),
            password.len(),
            connect_data.as_ptr(),
            connect_data.len(),
            url.as_ptr(),
            url.len(),
            address.as_ptr(),
            address.len(),
        )
    }
}

/// Writes a 0xD0 at the buffer's start: numbers 11 and 12.
pub fn write_add_player(buffer: &mut [u8], values: AddPlayer, fields: EntryFields) -> Written {
    let given = AddPlayerGiven {
        name: fields.name.is_some(),
        data: fields.data.is_some(),
        url: fields.url.is_some(),
    };
    let [name, data, url] = [fields.name, fields.data, fields.url].map(Option::unwrap_or_default);
    // SAFETY: each slice has as many bytes as its length says, and the buffer is borrowed alone.
    unsafe {
        ffi::dp8_write_add_player(
            buffer.as_mut_ptr(),
            buffer.len(),
            values,
            given,
            name.as_ptr(),
            name.len(),
            data.as_ptr(),
            data.len(),
            url.as_ptr(),
            url.len(),
        )
    }
}

/// Writes a 0xD1 at the buffer's start: numbers 11 and 12.
pub fn write_destroy_player(buffer: &mut [u8], values: DestroyPlayer) -> Written {
    // SAFETY: the buffer has as many bytes as its length says.
    unsafe { ffi::dp8_write_destroy_player(buffer.as_mut_ptr(), buffer.len(), values) }
}

/// Writes a 0xD3 at the buffer's start: numbers 11 and 12.
pub fn write_request_add_to_group(buffer: &mut [u8], values: RequestAddToGroup) -> Written {
    // SAFETY: the buffer has as many bytes as its length says.
    unsafe { ffi::dp8_write_request_add_to_group(buffer.as_mut_ptr(), buffer.len(), values) }
}

/// Writes a 0xD7 at the buffer's start: numbers 11 and 12.
pub fn write_create_group(buffer: &mut [u8], values: CreateGroup, fields: EntryFields) -> Written {
    let given = CreateGroupGiven {
        name: fields.name.is_some(),
        data: fields.data.is_some(),
        url: fields.url.is_some(),
    };
    let [name, data, url] = [fields.name, fields.data, fields.url].map(Option::unwrap_or_default);
    // SAFETY: each slice has as many bytes as its length says, and the buffer is borrowed alone.
    unsafe {
        ffi::dp8_write_create_group(
            buffer.as_mut_ptr(),
            buffer.len(),
            values,
            given,
            name.as_ptr(),
            name.len(),
            data.as_ptr(),
            data.len(),
            url.as_ptr(),
            url.len(),
        )
    }
}

/// Writes a 0xD8 at the buffer's start: numbers 11 and 12.
pub fn write_destroy_group(buffer: &mut [u8], values: DestroyGroup) -> Written {
    // SAFETY: the buffer has as many bytes as its length says.
    unsafe { ffi::dp8_write_destroy_group(buffer.as_mut_ptr(), buffer.len(), values) }
}

/// Writes a 0xD9 at the buffer's start: numbers 11 and 12.
pub fn write_add_to_group(buffer: &mut [u8], values: AddToGroup) -> Written {
    // SAFETY: the buffer has as many bytes as its length says.
    unsafe { ffi::dp8_write_add_to_group(buffer.as_mut_ptr(), buffer.len(), values) }
}

/// Writes a 0xDA at the buffer's start: numbers 11 and 12.
pub fn write_delete_from_group(buffer: &mut [u8], values: DeleteFromGroup) -> Written {
    // SAFETY: the buffer has as many bytes as its length says.
    unsafe { ffi::dp8_write_delete_from_group(buffer.as_mut_ptr(), buffer.len(), values) }
}

impl Name {
    /// How many characters the name has, counted as in `Part`: of what is kept, so that a half whose other half was cut off is one. Of any
    /// value; of a length over `NAME` + 1 all units are counted.
    pub fn characters(&self) -> u32 {
        // SAFETY: a name of any value, borrowed.
        unsafe { ffi::dp8_name_characters(self) }
    }
}

impl Replica {
    /// Version 0 and nothing in it.
    pub fn fresh() -> Replica {
        let mut made = MaybeUninit::uninit();
        // SAFETY: the call writes every word of a replica, whatever was there.
        unsafe {
            ffi::dp8_replica_fresh(made.as_mut_ptr());
            made.assume_init()
        }
    }

    /// Whether the replica is valid (paper 01, "The station"; paper 02: of names A3, of operations on groups A5); the other calls refuse
    /// one that is not with 28.
    pub fn is_valid(&self) -> bool {
        // SAFETY: a replica of any value, borrowed.
        unsafe { ffi::dp8_replica_is_valid(self) }
    }

    /// Delivers a message: numbers 1 to 10, 13 to 17, 28. With 0 the replica becomes the next one, with any other number it stays.
    /// A replica waits for `version + 1` and for nothing else (paper 02, A11): once an operation of every version up to a target, at most
    /// 32 above its version, has been delivered, in any order, alone or in batches, its version is the target or more.
    pub fn deliver(&mut self, message: &[u8]) -> Answer {
        // SAFETY: a replica borrowed alone, and a slice with as many bytes as its length says.
        unsafe { ffi::dp8_replica_deliver(self, message.as_ptr(), message.len()) }
    }

    /// Delivers framed messages (4 bytes of length, big-endian, then the message) in turn, each one's answer into its own record: numbers
    /// 28, and 29 where there are more whole messages than records. Replica and answers are those of `deliver`, one message after the
    /// other; records beyond theirs stay. A cut tail is not delivered. With 28 or 29 replica and records stay.
    pub fn batch(&mut self, messages: &[u8], records: &mut [Answer]) -> Batch {
        // SAFETY: a replica and records, each borrowed alone, and slices with as many bytes and records as their lengths say.
        unsafe {
            ffi::dp8_replica_batch(
                self,
                messages.as_ptr(),
                messages.len(),
                records.as_mut_ptr(),
                records.len(),
            )
        }
    }

    /// The player, other than the host, of the smallest entry version: number 28.
    pub fn next_host(&self) -> NextHost {
        // SAFETY: a replica of any value, borrowed.
        unsafe { ffi::dp8_replica_next_host(self) }
    }

    /// Reads a snapshot, whatever was there: 0 and its name table with nothing pending, or 21 to 26 and the fresh replica. Of format 2,
    /// which has names, or of format 1, with which every name is empty.
    pub fn read_snapshot(&mut self, snapshot: &[u8]) -> u32 {
        // SAFETY: a replica borrowed alone, and a slice with as many bytes as its length says.
        unsafe { ffi::dp8_snapshot_read(self, snapshot.as_ptr(), snapshot.len()) }
    }

    /// Writes the snapshot, in format 2, at the buffer's start: numbers 27 and 28.
    pub fn write_snapshot(&self, buffer: &mut [u8]) -> Written {
        // SAFETY: a replica, and a buffer borrowed alone with as many bytes as its length says.
        unsafe { ffi::dp8_snapshot_write(self, buffer.as_mut_ptr(), buffer.len()) }
    }
}

/// Views of a replica of any value: what its counts and acts say is used.
impl Replica {
    pub fn used_entries(&self) -> &[Entry] {
        &self.entries[..ENTRIES.min(self.entry_count as usize)]
    }

    pub fn used_memberships(&self) -> &[Membership] {
        &self.memberships[..MEMBERSHIPS.min(self.membership_count as usize)]
    }

    /// The operations that wait, rising by version in a valid replica.
    pub fn waiting(&self) -> impl Iterator<Item = &Operation> {
        self.pending.iter().filter(|operation| operation.act != 0)
    }

    /// All of it, in the struct's order.
    pub fn words(&self) -> &[u32; WORDS] {
        // SAFETY: the struct has fields of u32 and pairs of u16 alone, of this size altogether, and the alignment of u32.
        unsafe { &*std::ptr::from_ref(self).cast() }
    }
}

impl From<[u32; WORDS]> for Replica {
    fn from(words: [u32; WORDS]) -> Replica {
        // SAFETY: the struct has fields of u32 and pairs of u16 alone, of this size altogether; any value is one of theirs.
        unsafe { std::mem::transmute(words) }
    }
}

/// The listing of an input, as much of it as the buffer has room for, at the buffer's start; the answer is how many bytes that is.
pub fn listing(input: &[u8], buffer: &mut [u8]) -> usize {
    // SAFETY: both slices have as many bytes as their lengths say, and the buffer is borrowed alone.
    unsafe {
        ffi::dp8_listing(
            input.as_ptr(),
            input.len(),
            buffer.as_mut_ptr(),
            buffer.len(),
        )
    }
}
