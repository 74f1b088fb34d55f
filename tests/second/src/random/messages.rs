//! Random messages, put together without the writers: fields in any order,
//! with gaps, overlapping, and any value in the words that nothing reads.

use super::damage::{damage, noise, typed_noise};
use super::names::wide_text;
use super::Rng;

#[derive(Clone, Copy)]
enum Content {
    Wide,
    Bytes,
    Free,
}

/// Positions of the offset words, and what the fields hold.
const CONNECT_INFO_PAIRS: [(usize, Content); 6] = [
    (12, Content::Wide),
    (20, Content::Free),
    (28, Content::Wide),
    (36, Content::Free),
    (44, Content::Bytes),
    (84, Content::Free),
];
/// The same of an entry, counted from the entry's first byte.
const ENTRY_PAIRS: [(usize, Content); 3] = [
    (24, Content::Wide),
    (32, Content::Free),
    (40, Content::Bytes),
];

/// Any message: regular for the most part, some damaged, a little noise.
pub fn message(rng: &mut Rng, version: u32) -> Vec<u8> {
    match rng.below(32) {
        0 => noise(rng, 150),
        1..=2 => typed_noise(rng),
        3..=9 => {
            let mut bytes = regular_message(rng, version);
            damage(rng, &mut bytes);
            bytes
        }
        _ => regular_message(rng, version),
    }
}

/// Any of the eight types, operations most often; `version` is the replica's.
/// Well-formed, but for a text or a field's place now and then.
pub fn regular_message(rng: &mut Rng, version: u32) -> Vec<u8> {
    match rng.below(10) {
        0..=1 => connect_info(rng),
        2 => request_add_player_to_group(rng),
        _ => operation(rng, version),
    }
}

/// Any of the six operations, with a version near the replica's.
pub fn operation(rng: &mut Rng, version: u32) -> Vec<u8> {
    let own = version_near(rng, version);
    operation_of(rng, own)
}

/// The same of this very version; more entries come than go.
pub fn operation_of(rng: &mut Rng, version: u32) -> Vec<u8> {
    match rng.below(16) {
        0..=3 => add_player(rng, version),
        4..=6 => destroy_player(rng, version),
        7..=9 => create_group(rng, version),
        10..=11 => destroy_group(rng, version),
        12..=13 => add_player_to_group(rng, version),
        _ => delete_player_from_group(rng, version),
    }
}

/// 0xC1, plain or extended.
pub fn connect_info(rng: &mut Rng) -> Vec<u8> {
    let any = rng.word();
    let dnet_version = rng.pick(&[0, 1, 6, 6, 7, 7, 8, u32::MAX, any]);
    let flags = rng.pick(&[2, 4]);
    let fixed = if dnet_version >= 7 { 92 } else { 84 };
    let mut m = words(&[0xC1, flags, dnet_version]);
    m.resize(52, 0);
    m.extend((0..32).map(|_| rng.byte()));
    m.resize(fixed, 0);
    let own_pairs = &CONNECT_INFO_PAIRS[..if fixed == 92 { 6 } else { 5 }];
    add_fields(rng, &mut m, own_pairs);
    hollow_pairs(rng, &mut m, own_pairs, fixed);
    m
}

/// 0xC1 of 16,384 bytes, each of its six fields over all that follows the
/// fixed part: in text, no message is longer.
pub fn broad_message(rng: &mut Rng) -> Vec<u8> {
    let mut m = words(&[0xC1, 4, 7]);
    m.resize(92, 0);
    let high_bit = rng.pick(&[0, 0x80]);
    m.extend((92..16_382).map(|_| (rng.byte() | high_bit).max(1)));
    m.extend([0, 0]);
    for (pair, content) in CONNECT_INFO_PAIRS {
        // Bytes end at the first of the two zeros, units with both.
        let end = match content {
            Content::Bytes => m.len() - 1,
            Content::Wide | Content::Free => m.len(),
        };
        put_pair(&mut m, pair, 92, end - 92);
    }
    m
}

/// 0xD0 of this very version.
pub fn add_player(rng: &mut Rng, version: u32) -> Vec<u8> {
    entry_message(rng, &[0xD0], version)
}

/// 0xD7 of this very version.
pub fn create_group(rng: &mut Rng, version: u32) -> Vec<u8> {
    let head = [0xD7, free_word(rng), free_word(rng)];
    entry_message(rng, &head, version)
}

/// A message that ends in an entry and its fields.
fn entry_message(rng: &mut Rng, head: &[u32], version: u32) -> Vec<u8> {
    let (owner, not_used, any) = (free_word(rng), free_word(rng), free_word(rng));
    // Among them those that elsewhere mark the host, a group, a group that goes by
    // itself, a peer, a client.
    let flags = rng.pick(&[any, any, 2, 0x10, 0x40, 0x50, 0x100, 0x102, 0x200]);
    let entry = [id(rng), owner, flags, version, not_used, free_word(rng)];
    let start = 4 * head.len();
    let mut m = words(&[head, &entry].concat());
    m.resize(start + 48, 0);
    if !rng.one_in(3) {
        let pairs = ENTRY_PAIRS.map(|(pair, content)| (start + pair, content));
        add_fields(rng, &mut m, &pairs);
    }
    m
}

/// 0xD1 of this very version.
pub fn destroy_player(rng: &mut Rng, version: u32) -> Vec<u8> {
    words(&[0xD1, id(rng), version, free_word(rng), free_word(rng)])
}

/// 0xD3.
pub fn request_add_player_to_group(rng: &mut Rng) -> Vec<u8> {
    words(&[0xD3, free_word(rng), id(rng), id(rng)])
}

/// 0xD8 of this very version.
pub fn destroy_group(rng: &mut Rng, version: u32) -> Vec<u8> {
    let (not_used, requesting, context) = (free_word(rng), free_word(rng), free_word(rng));
    words(&[0xD8, id(rng), version, not_used, requesting, context])
}

/// 0xD9 of this very version.
pub fn add_player_to_group(rng: &mut Rng, version: u32) -> Vec<u8> {
    membership_message(rng, 0xD9, version)
}

/// 0xDA of this very version.
pub fn delete_player_from_group(rng: &mut Rng, version: u32) -> Vec<u8> {
    membership_message(rng, 0xDA, version)
}

fn membership_message(rng: &mut Rng, kind: u32, version: u32) -> Vec<u8> {
    let (group, player) = (id(rng), id(rng));
    let (not_used, requesting, context) = (free_word(rng), free_word(rng), free_word(rng));
    words(&[kind, group, player, version, not_used, requesting, context])
}

/// An id that is not 0, from a small pool for the most part.
pub fn id(rng: &mut Rng) -> u32 {
    match rng.below(16) {
        0..=8 => rng.between(1, 9) as u32,
        9..=14 => rng.between(1, 80) as u32,
        _ => rng.pick(&[100, 200, 300, 400, 0x8000_0000, u32::MAX]),
    }
}

/// A version near the replica's: next most often, ahead, behind, or far off.
pub fn version_near(rng: &mut Rng, version: u32) -> u32 {
    let step = match rng.below(24) {
        0..=10 => 1,
        11..=16 => rng.between(2, 5) as i64,
        17..=19 => rng.between(2, 32) as i64,
        20 => rng.between(31, 34) as i64,
        21..=22 => -(rng.below(4) as i64),
        _ => return far_version(rng),
    };
    (i64::from(version) + step).clamp(0, i64::from(u32::MAX)) as u32
}

fn far_version(rng: &mut Rng) -> u32 {
    let any = rng.word();
    rng.pick(&[0, 1, 0x7FFF_FFFF, 0x8000_0000, u32::MAX - 1, u32::MAX, any])
}

/// Any value, small and extreme ones often.
fn free_word(rng: &mut Rng) -> u32 {
    let any = rng.word();
    rng.pick(&[0, 0, 1, 2, 7, u32::MAX, any, any])
}

/// Well-formed byte text with its terminator.
pub fn byte_text(rng: &mut Rng) -> Vec<u8> {
    let length = rng.between(0, 12);
    let mut bytes: Vec<u8> = (0..length).map(|_| rng.byte().max(1)).collect();
    bytes.push(0);
    bytes
}

/// Free content of at least one byte.
pub fn free_bytes(rng: &mut Rng) -> Vec<u8> {
    let mut bytes = noise(rng, 20);
    bytes.push(rng.byte());
    bytes
}

fn words(values: &[u32]) -> Vec<u8> {
    values
        .iter()
        .flat_map(|value| value.to_le_bytes())
        .collect()
}

/// Adds some of the fields, in any order.
fn add_fields(rng: &mut Rng, m: &mut Vec<u8>, pairs: &[(usize, Content)]) {
    let fixed = m.len();
    let mut order = pairs.to_vec();
    rng.shuffle(&mut order);
    for (pair, content) in order {
        match (rng.below(10), content) {
            (0..=3, _) => {}
            (4, Content::Free) if m.len() > fixed => overlap(rng, m, pair, fixed),
            (5, Content::Free) if rng.one_in(6) => edge_field(rng, m, pair, fixed),
            (5, _) if rng.one_in(4) => append_ill_formed(rng, m, pair, content),
            _ => {
                let bytes = content_bytes(rng, content);
                append(rng, m, pair, &bytes);
            }
        }
    }
}

fn content_bytes(rng: &mut Rng, content: Content) -> Vec<u8> {
    match content {
        Content::Wide => wide_text(rng),
        Content::Bytes => byte_text(rng),
        // Now and then so long that the message is near its limit.
        Content::Free if rng.one_in(400) => vec![7; rng.between(16_100, 16_384)],
        Content::Free => free_bytes(rng),
    }
}

/// Appends a field, now and then after a gap.
fn append(rng: &mut Rng, m: &mut Vec<u8>, pair: usize, bytes: &[u8]) {
    if rng.one_in(5) {
        let gap = noise(rng, 5);
        m.extend(gap);
    }
    let start = m.len();
    m.extend_from_slice(bytes);
    put_pair(m, pair, start, bytes.len());
}

/// A field that lies anywhere in the part already there.
fn overlap(rng: &mut Rng, m: &mut [u8], pair: usize, fixed: usize) {
    let start = rng.between(fixed, m.len() - 1);
    let size = rng.between(1, m.len() - start);
    put_pair(m, pair, start, size);
}

/// A field that touches or just passes the fixed part's or the message's end.
fn edge_field(rng: &mut Rng, m: &mut [u8], pair: usize, fixed: usize) {
    let start = rng.pick(&[fixed - 1, fixed, fixed]);
    let end = (m.len() + rng.below(2)).max(start + 1);
    put_pair(m, pair, start, end - start);
}

/// Text without terminator, with a zero inside, or of odd size.
fn append_ill_formed(rng: &mut Rng, m: &mut Vec<u8>, pair: usize, content: Content) {
    let mut bytes = content_bytes(rng, content);
    match rng.below(3) {
        0 => bytes.extend_from_slice(&[0, 0]),
        1 => bytes.push(1),
        _ => bytes.extend_from_slice(&[1, 1]),
    }
    append(rng, m, pair, &bytes);
}

/// Gives some absent fields an offset or a size that is not 0: in a 0xC1 they
/// are absent still. Last, as the message's length must be known.
fn hollow_pairs(rng: &mut Rng, m: &mut [u8], pairs: &[(usize, Content)], fixed: usize) {
    for &(pair, _) in pairs {
        if m[pair..pair + 8] == [0; 8] && rng.one_in(6) {
            let half = pair + rng.pick(&[0, 0, 4]);
            let value = hollow_value(rng, fixed - 4, m.len() - 4);
            m[half..half + 4].copy_from_slice(&value.to_le_bytes());
        }
    }
}

/// As an offset: in the fixed part, behind it, at the message's end, past it,
/// and far past it, where a sum of 32 bits may wrap.
fn hollow_value(rng: &mut Rng, first: usize, end: usize) -> u32 {
    let value = match rng.below(5) {
        0 => rng.between(1, first - 1),
        1 => rng.between(first, end),
        2 => end,
        3 => end + rng.between(1, 9),
        _ => return rng.pick(&[0x7FFF_FFFF, 0xFFFF_FFFC, u32::MAX]),
    };
    value as u32
}

fn put_pair(m: &mut [u8], pair: usize, start: usize, size: usize) {
    m[pair..pair + 4].copy_from_slice(&(start as u32 - 4).to_le_bytes());
    m[pair + 4..pair + 8].copy_from_slice(&(size as u32).to_le_bytes());
}
