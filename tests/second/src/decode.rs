//! The output of the program `decode`: a line for each framed message that
//! says what it is. No paper asks for it; its format is the project's own, but
//! for the count of characters behind each text (02 A9).

use crate::characters;
use crate::framing;
use crate::meaning::meaning;
use crate::message::{ConnectInfo, EntryInfo, FieldName, MembershipChange, Message};
use crate::read::{read, units};

/// Bytes of input taken at most.
pub const MAX_INPUT: usize = 1_048_576;

/// The whole output.
pub fn decode(input: &[u8]) -> Vec<u8> {
    let (taken, past_limit) = framing::taken(input, MAX_INPUT);
    let (messages, tail) = framing::messages(taken);
    let mut text = String::new();
    for m in messages {
        match read(m) {
            Ok(message) => text.push_str(&said(m, &message)),
            Err(number) => text.push_str(&format!("refused {number} {}", meaning(number))),
        }
        text.push('\n');
    }
    if tail || past_limit {
        text.push_str("cut\n");
    }
    text.into_bytes()
}

/// What a message says, values and then fields in header order.
pub fn said(m: &[u8], message: &Message) -> String {
    let mut text = values_text(message);
    for which in FieldName::ALL {
        if let Some(part) = message.place(which) {
            text.push_str(&field_text(which, part.of(m)));
            if let Some(count) = part.characters {
                text.push_str(&format!(" {count}"));
            }
        }
    }
    text
}

fn values_text(message: &Message) -> String {
    match message {
        Message::ConnectInfo(v) => connect_info_text(v),
        Message::AddPlayer(v) => format!("0xD0 add player {}", entry_text(v)),
        Message::DestroyPlayer(v) => format!(
            "0xD1 destroy player dpnid {} version {} not-used {} reason {}",
            v.dpnid, v.version, v.version_not_used, v.reason
        ),
        Message::RequestAddPlayerToGroup(v) => format!(
            "0xD3 request add to group context {} group {} player {}",
            v.context, v.group, v.player
        ),
        Message::CreateGroup(v) => format!(
            "0xD7 create group requesting {} context {} {}",
            v.requesting,
            v.context,
            entry_text(&v.entry)
        ),
        Message::DestroyGroup(v) => format!(
            "0xD8 destroy group group {} version {} not-used {} requesting {} context {}",
            v.group, v.version, v.version_not_used, v.requesting, v.context
        ),
        Message::AddPlayerToGroup(v) => format!("0xD9 add to group {}", membership_text(v)),
        Message::DeletePlayerFromGroup(v) => {
            format!("0xDA delete from group {}", membership_text(v))
        }
    }
}

fn connect_info_text(v: &ConnectInfo) -> String {
    format!(
        "0xC1 connect info flags {} dnet {} instance {} application {}",
        v.flags,
        v.dnet_version,
        guid_text(&v.instance_guid),
        guid_text(&v.application_guid)
    )
}

fn entry_text(v: &EntryInfo) -> String {
    format!(
        "dpnid {} owner {} flags {} version {} not-used {} dnet {}",
        v.dpnid, v.owner, v.flags, v.version, v.version_not_used, v.dnet_version
    )
}

fn membership_text(v: &MembershipChange) -> String {
    format!(
        "group {} player {} version {} not-used {} requesting {} context {}",
        v.group, v.player, v.version, v.version_not_used, v.requesting, v.context
    )
}

/// The usual form: a 32-bit and two 16-bit numbers, little-endian in the
/// message, then eight bytes as they stand.
fn guid_text(g: &[u8; 16]) -> String {
    format!(
        "{:08X}-{:04X}-{:04X}-{:02X}{:02X}-{:02X}{:02X}{:02X}{:02X}{:02X}{:02X}",
        u32::from_le_bytes([g[0], g[1], g[2], g[3]]),
        u16::from_le_bytes([g[4], g[5]]),
        u16::from_le_bytes([g[6], g[7]]),
        g[8],
        g[9],
        g[10],
        g[11],
        g[12],
        g[13],
        g[14],
        g[15]
    )
}

/// A field's name and its content in quotes, the terminator of a text left out.
fn field_text(which: FieldName, bytes: &[u8]) -> String {
    match which {
        FieldName::Name => format!(" name \"{}\"", units_text(&units(bytes))),
        FieldName::Data => format!(" data \"{}\"", bytes_text(bytes)),
        FieldName::Password => format!(" password \"{}\"", units_text(&units(bytes))),
        FieldName::ConnectData => format!(" connect-data \"{}\"", bytes_text(bytes)),
        FieldName::Url => format!(" url \"{}\"", bytes_text(&bytes[..bytes.len() - 1])),
        FieldName::AlternateAddress => format!(" alternate-address \"{}\"", bytes_text(bytes)),
    }
}

fn bytes_text(bytes: &[u8]) -> String {
    let mut text = String::new();
    for &byte in bytes {
        match plain(u16::from(byte)) {
            Some(c) => text.push(c),
            None => {
                text.push_str("\\x");
                push_hex(&mut text, u16::from(byte), 2);
            }
        }
    }
    text
}

/// An entry's name, as that of a message is shown.
pub fn name_text(units: &[u16]) -> String {
    let count = characters::of_units(units);
    format!(" name \"{}\" {count}", units_text(units))
}

fn units_text(units: &[u16]) -> String {
    let mut text = String::new();
    for &unit in units {
        match plain(unit) {
            Some(c) => text.push(c),
            None => {
                text.push_str("\\u");
                push_hex(&mut text, unit, 4);
            }
        }
    }
    text
}

/// The printable ASCII character of that code; none for `"` and `\`, so that
/// quotes and escapes can be told from content.
fn plain(code: u16) -> Option<char> {
    let c = char::from(u8::try_from(code).ok()?);
    let printable = c == ' ' || c.is_ascii_graphic();
    (printable && c != '"' && c != '\\').then_some(c)
}

/// So many hexadecimal digits. Not `format!`: a line may have 300,000 of them.
fn push_hex(text: &mut String, value: u16, digits: u32) {
    for place in (0..digits).rev() {
        let digit = u32::from(value >> (4 * place)) & 15;
        text.extend(char::from_digit(digit, 16).map(|c| c.to_ascii_uppercase()));
    }
}
