//! The snapshot: a saved name table, big-endian (01 "The sheet"; 02 A3).

use crate::name_table::{
    is_kind, is_name, Entry, Name, GROUP, MAX_ENTRIES, MAX_MEMBERSHIPS, PLAYER,
};
use crate::replica::Replica;
use crate::write::Written;

/// Without names; read and never written.
const NAMELESS: u8 = 1;
/// With a name behind each entry.
const NAMED: u8 = 2;
/// N, and the bytes after it and before the entries.
const WORD: usize = 4;
const HEAD: usize = 11;
/// Of an entry, its name left out.
const ENTRY_BYTES: usize = 21;
const MEMBERSHIP_BYTES: usize = 8;

/// The replica, or 21 to 26. For a refused snapshot the caller goes on with
/// `Replica::fresh()`.
pub fn read(bytes: &[u8]) -> Result<Replica, u32> {
    check_length(bytes)?;
    let format = bytes[4];
    if format != NAMELESS && format != NAMED {
        return Err(22);
    }
    let parts = Parts::of(bytes, format)?;
    check_names(&parts.entries)?;
    let replica = decode(bytes, &parts);
    check_entries(&replica)?;
    if replica.host != 0 && !has(&replica, PLAYER, replica.host) {
        return Err(25);
    }
    check_memberships(&replica)?;
    Ok(replica)
}

/// 28, then 27, then the snapshot from the buffer's start; bytes beyond stay.
pub fn write(replica: &Replica, buf: &mut [u8]) -> Written {
    if !replica.is_valid() {
        return Written {
            number: 28,
            written: 0,
        };
    }
    let bytes = encode(replica);
    if buf.len() < bytes.len() {
        return Written {
            number: 27,
            written: 0,
        };
    }
    buf[..bytes.len()].copy_from_slice(&bytes);
    Written {
        number: 0,
        written: bytes.len(),
    }
}

fn check_length(bytes: &[u8]) -> Result<(), u32> {
    if bytes.len() < WORD {
        return Err(21);
    }
    let n = u64::from(word(bytes, 0));
    if n < HEAD as u64 || n + WORD as u64 != bytes.len() as u64 {
        return Err(21);
    }
    Ok(())
}

/// A snapshot taken apart, before anything is asked of its values.
struct Parts<'a> {
    /// Each entry's 21 bytes, and the bytes of its name.
    entries: Vec<(&'a [u8], &'a [u8])>,
    memberships: &'a [u8],
}

impl Parts<'_> {
    /// Number 23. A name has as many bytes as its length byte says, odd or too
    /// many though they be: that is for 24, once everything has its place.
    fn of(bytes: &[u8], format: u8) -> Result<Parts<'_>, u32> {
        let (entry_count, membership_count) = (usize::from(bytes[13]), usize::from(bytes[14]));
        if entry_count > MAX_ENTRIES || membership_count > MAX_MEMBERSHIPS {
            return Err(23);
        }
        let mut rest = &bytes[WORD + HEAD..];
        let mut entries = Vec::new();
        for _ in 0..entry_count {
            let entry = take(&mut rest, ENTRY_BYTES)?;
            let name = match format {
                NAMELESS => &[],
                _ => {
                    let length = take(&mut rest, 1)?[0];
                    take(&mut rest, usize::from(length))?
                }
            };
            entries.push((entry, name));
        }
        if rest.len() != MEMBERSHIP_BYTES * membership_count {
            return Err(23);
        }
        Ok(Parts {
            entries,
            memberships: rest,
        })
    }
}

/// So many bytes off the start; 23 where they are not there.
fn take<'a>(rest: &mut &'a [u8], count: usize) -> Result<&'a [u8], u32> {
    let (taken, after) = rest.split_at_checked(count).ok_or(23u32)?;
    *rest = after;
    Ok(taken)
}

/// Part of 24: a name is whole units, and one that may be kept.
fn check_names(entries: &[(&[u8], &[u8])]) -> Result<(), u32> {
    let well_formed = |name: &[u8]| name.len().is_multiple_of(2) && is_name(&units(name));
    if entries.iter().all(|(_, name)| well_formed(name)) {
        return Ok(());
    }
    Err(24)
}

fn check_entries(replica: &Replica) -> Result<(), u32> {
    for (index, entry) in replica.entries.iter().enumerate() {
        let earlier = &replica.entries[..index];
        let id_new = entry.id != 0 && earlier.iter().all(|e| e.id != entry.id);
        let rising = earlier.last().is_none_or(|e| e.version < entry.version);
        if !is_kind(entry.kind) || !id_new || !rising || entry.version > replica.version {
            return Err(24);
        }
    }
    Ok(())
}

fn check_memberships(replica: &Replica) -> Result<(), u32> {
    let mut last = None;
    for &(group, player) in &replica.memberships {
        let rising = last < Some((group, player));
        if !rising || !has(replica, GROUP, group) || !has(replica, PLAYER, player) {
            return Err(26);
        }
        last = Some((group, player));
    }
    Ok(())
}

fn has(replica: &Replica, kind: u32, id: u32) -> bool {
    replica.entries.iter().any(|e| e.kind == kind && e.id == id)
}

/// Only with names of whole units.
fn decode(bytes: &[u8], parts: &Parts) -> Replica {
    let entries = parts.entries.iter();
    Replica {
        version: word(bytes, 5),
        host: word(bytes, 9),
        entries: entries.map(|(e, name)| decode_entry(e, name)).collect(),
        memberships: parts
            .memberships
            .chunks(MEMBERSHIP_BYTES)
            .map(|pair| (word(pair, 0), word(pair, 4)))
            .collect(),
        pending: Vec::new(),
    }
}

fn decode_entry(bytes: &[u8], name: &[u8]) -> Entry {
    Entry {
        kind: u32::from(bytes[0]),
        id: word(bytes, 1),
        owner: word(bytes, 5),
        flags: word(bytes, 9),
        version: word(bytes, 13),
        dnet_version: word(bytes, 17),
        name: units(name),
    }
}

/// Units with the high byte first; an odd byte at the end is left out.
fn units(bytes: &[u8]) -> Name {
    let pairs = bytes.chunks_exact(2);
    pairs.map(|u| u16::from_be_bytes([u[0], u[1]])).collect()
}

fn word(bytes: &[u8], position: usize) -> u32 {
    bytes[position..position + 4]
        .iter()
        .fold(0, |sum, &b| sum << 8 | u32::from(b))
}

/// Only for a valid replica: kinds, counts and lengths of names fit a byte.
fn encode(replica: &Replica) -> Vec<u8> {
    let mut body = vec![NAMED];
    push(&mut body, &[replica.version, replica.host]);
    body.push(replica.entries.len() as u8);
    body.push(replica.memberships.len() as u8);
    for e in &replica.entries {
        body.push(e.kind as u8);
        push(
            &mut body,
            &[e.id, e.owner, e.flags, e.version, e.dnet_version],
        );
        body.push(2 * e.name.len() as u8);
        body.extend(e.name.iter().flat_map(|unit| unit.to_be_bytes()));
    }
    for &(group, player) in &replica.memberships {
        push(&mut body, &[group, player]);
    }
    let mut whole = Vec::new();
    push(&mut whole, &[body.len() as u32]);
    whole.extend(body);
    whole
}

fn push(bytes: &mut Vec<u8>, words: &[u32]) {
    for value in words {
        bytes.extend_from_slice(&value.to_be_bytes());
    }
}
