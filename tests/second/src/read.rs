//! Reading a message: checks 1 to 10 (01 "Numbers a call may answer"; 02 A1, A9).

use crate::characters;
pub use crate::message::*;

/// Largest message in bytes (number 1).
pub const MAX_MESSAGE: usize = 16_384;

/// The message, or the number of the first check that fails.
pub fn read(m: &[u8]) -> Result<Message, u32> {
    if m.len() > MAX_MESSAGE {
        return Err(1);
    }
    if m.len() < 4 {
        return Err(2);
    }
    match word(m, 0) {
        CONNECT_INFO => read_connect_info(m),
        ADD_PLAYER => read_add_player(m),
        DESTROY_PLAYER => read_destroy_player(m),
        REQUEST_ADD_PLAYER_TO_GROUP => read_request(m),
        CREATE_GROUP => read_create_group(m),
        DESTROY_GROUP => read_destroy_group(m),
        ADD_PLAYER_TO_GROUP => Ok(Message::AddPlayerToGroup(membership_change(m)?)),
        DELETE_PLAYER_FROM_GROUP => Ok(Message::DeletePlayerFromGroup(membership_change(m)?)),
        _ => Err(3),
    }
}

/// The bytes of a field, terminator included, as part of the message itself;
/// empty where absent, not of this type, or the message is refused.
pub fn field(m: &[u8], which: FieldName) -> &[u8] {
    match read(m).ok().and_then(|message| message.place(which)) {
        Some(part) => part.of(m),
        None => &[],
    }
}

fn read_connect_info(m: &[u8]) -> Result<Message, u32> {
    // Under 84 bytes both forms are too short, whatever the DNET version.
    at_least(m, 84)?;
    let dnet_version = word(m, 8);
    let extended = dnet_version >= 7;
    let fixed = if extended { 92 } else { 84 };
    at_least(m, fixed)?;
    let flags = word(m, 4);
    if flags != 2 && flags != 4 {
        return Err(6);
    }
    Ok(Message::ConnectInfo(ConnectInfo {
        flags,
        dnet_version,
        instance_guid: guid(m, 52),
        application_guid: guid(m, 68),
        // Evaluated in this written order, which is header order.
        name: lax_field(m, 12, fixed, wide_text)?,
        data: lax_field(m, 20, fixed, free)?,
        password: lax_field(m, 28, fixed, wide_text)?,
        connect_data: lax_field(m, 36, fixed, free)?,
        url: lax_field(m, 44, fixed, byte_text)?,
        alternate_address: if extended {
            lax_field(m, 84, fixed, free)?
        } else {
            None
        },
    }))
}

fn read_add_player(m: &[u8]) -> Result<Message, u32> {
    at_least(m, 52)?;
    Ok(Message::AddPlayer(entry_info(m, 4)?))
}

fn read_create_group(m: &[u8]) -> Result<Message, u32> {
    at_least(m, 60)?;
    Ok(Message::CreateGroup(CreateGroup {
        requesting: word(m, 4),
        context: word(m, 8),
        entry: entry_info(m, 12)?,
    }))
}

/// The entry whose 48 bytes end the fixed part, and its fields in header order.
fn entry_info(m: &[u8], start: usize) -> Result<EntryInfo, u32> {
    let fixed = start + 48;
    Ok(EntryInfo {
        dpnid: id(m, start)?,
        owner: word(m, start + 4),
        flags: word(m, start + 8),
        version: word(m, start + 12),
        version_not_used: word(m, start + 16),
        dnet_version: word(m, start + 20),
        name: strict_field(m, start + 24, fixed, wide_text)?,
        data: strict_field(m, start + 32, fixed, free)?,
        url: strict_field(m, start + 40, fixed, byte_text)?,
    })
}

fn read_destroy_player(m: &[u8]) -> Result<Message, u32> {
    exactly(m, 20)?;
    Ok(Message::DestroyPlayer(DestroyPlayer {
        dpnid: id(m, 4)?,
        version: word(m, 8),
        version_not_used: word(m, 12),
        reason: word(m, 16),
    }))
}

fn read_request(m: &[u8]) -> Result<Message, u32> {
    exactly(m, 16)?;
    Ok(Message::RequestAddPlayerToGroup(RequestAddPlayerToGroup {
        context: word(m, 4),
        group: id(m, 8)?,
        player: id(m, 12)?,
    }))
}

fn read_destroy_group(m: &[u8]) -> Result<Message, u32> {
    exactly(m, 24)?;
    Ok(Message::DestroyGroup(DestroyGroup {
        group: id(m, 4)?,
        version: word(m, 8),
        version_not_used: word(m, 12),
        requesting: word(m, 16),
        context: word(m, 20),
    }))
}

/// What 0xD9 and 0xDA have in common: all but the type.
fn membership_change(m: &[u8]) -> Result<MembershipChange, u32> {
    exactly(m, 28)?;
    Ok(MembershipChange {
        group: id(m, 4)?,
        player: id(m, 8)?,
        version: word(m, 12),
        version_not_used: word(m, 16),
        requesting: word(m, 20),
        context: word(m, 24),
    })
}

/// Number 4.
fn at_least(m: &[u8], fixed: usize) -> Result<(), u32> {
    if m.len() < fixed {
        return Err(4);
    }
    Ok(())
}

/// Numbers 4 and 5.
fn exactly(m: &[u8], fixed: usize) -> Result<(), u32> {
    at_least(m, fixed)?;
    if m.len() > fixed {
        return Err(5);
    }
    Ok(())
}

/// Number 7.
fn id(m: &[u8], position: usize) -> Result<u32, u32> {
    match word(m, position) {
        0 => Err(7),
        value => Ok(value),
    }
}

fn word(m: &[u8], position: usize) -> u32 {
    u32::from_le_bytes([
        m[position],
        m[position + 1],
        m[position + 2],
        m[position + 3],
    ])
}

fn guid(m: &[u8], position: usize) -> [u8; 16] {
    let mut bytes = [0; 16];
    bytes.copy_from_slice(&m[position..position + 16]);
    bytes
}

/// Checks a field's bytes: how many characters they are, `None` where they are
/// no text; or number 10.
type Check = fn(&[u8]) -> Result<Option<usize>, u32>;

/// The field whose offset word stands at `pair`, by 0xC1's rule: absent with
/// one number 0, for old clients that send an offset and no bytes.
fn lax_field(m: &[u8], pair: usize, fixed: usize, check: Check) -> Result<Place, u32> {
    match (word(m, pair), word(m, pair + 4)) {
        (0, _) | (_, 0) => Ok(None),
        (offset, size) => present_field(m, (offset, size), fixed, check),
    }
}

/// The same by the rule of 0xD0 and 0xD7: absent with both numbers 0, number 8 with one.
fn strict_field(m: &[u8], pair: usize, fixed: usize, check: Check) -> Result<Place, u32> {
    match (word(m, pair), word(m, pair + 4)) {
        (0, 0) => Ok(None),
        (0, _) | (_, 0) => Err(8),
        (offset, size) => present_field(m, (offset, size), fixed, check),
    }
}

/// A field with neither number 0: numbers 9 and 10.
fn present_field(
    m: &[u8],
    (offset, size): (u32, u32),
    fixed: usize,
    check: Check,
) -> Result<Place, u32> {
    // An offset counts from the end of the type word; 64 bits never wrap here.
    let start = u64::from(offset) + 4;
    let end = start + u64::from(size);
    if start < fixed as u64 || end > m.len() as u64 {
        return Err(9);
    }
    Ok(Some(Part {
        start: start as usize,
        size: size as usize,
        characters: check(&m[start as usize..end as usize])?,
    }))
}

/// Name and password: UTF-16 units, the last zero and no other.
fn wide_text(bytes: &[u8]) -> Result<Option<usize>, u32> {
    let first_zero = bytes.chunks(2).position(|unit| unit == [0, 0]);
    if !bytes.len().is_multiple_of(2) || first_zero.map(|i| 2 * (i + 1)) != Some(bytes.len()) {
        return Err(10);
    }
    Ok(Some(characters::of_units(&units(bytes))))
}

/// URL: bytes, the last zero and no other.
fn byte_text(bytes: &[u8]) -> Result<Option<usize>, u32> {
    if bytes.iter().position(|&b| b == 0).map(|i| i + 1) != Some(bytes.len()) {
        return Err(10);
    }
    Ok(Some(characters::of_url(bytes)))
}

fn free(_: &[u8]) -> Result<Option<usize>, u32> {
    Ok(None)
}

/// The units of a text; the last one is the terminator and is left out.
pub fn units(bytes: &[u8]) -> Vec<u16> {
    let text = &bytes[..bytes.len() - 2];
    let unit = |pair: &[u8]| u16::from_le_bytes([pair[0], pair[1]]);
    text.chunks(2).map(unit).collect()
}
