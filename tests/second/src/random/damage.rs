//! Damage to bytes, and bytes with little or no structure.

use super::Rng;

/// The type words that are listed.
const TYPES: [u32; 8] = [0xC1, 0xD0, 0xD1, 0xD3, 0xD7, 0xD8, 0xD9, 0xDA];

/// Changes the bytes in one or two ways; they may come out well-formed still.
pub fn damage(rng: &mut Rng, bytes: &mut Vec<u8>) {
    damage_once(rng, bytes);
    if rng.one_in(4) {
        damage_once(rng, bytes);
    }
}

/// Bytes without structure, at most `max` of them.
pub fn noise(rng: &mut Rng, max: usize) -> Vec<u8> {
    let length = rng.between(0, max);
    (0..length).map(|_| rng.byte()).collect()
}

/// A known type word, then noise made mostly of small words.
pub fn typed_noise(rng: &mut Rng) -> Vec<u8> {
    let known = rng.pick(&TYPES);
    let mut bytes = known.to_le_bytes().to_vec();
    for _ in 0..rng.between(0, 30) {
        let value = interesting_word(rng, bytes.len());
        bytes.extend_from_slice(&value.to_le_bytes());
    }
    let tail = noise(rng, 3);
    bytes.extend(tail);
    bytes
}

fn damage_once(rng: &mut Rng, bytes: &mut Vec<u8>) {
    match rng.below(16) {
        0..=2 => flip_bit(rng, bytes),
        3..=4 => truncate(rng, bytes),
        5 => extend(rng, bytes),
        6 => stretch(rng, bytes),
        7..=8 => replace_byte(rng, bytes),
        9..=10 => replace_pair(rng, bytes),
        _ => replace_word(rng, bytes),
    }
}

fn flip_bit(rng: &mut Rng, bytes: &mut [u8]) {
    if !bytes.is_empty() {
        bytes[rng.below(bytes.len())] ^= 1 << rng.below(8);
    }
}

fn truncate(rng: &mut Rng, bytes: &mut Vec<u8>) {
    let length = bytes.len();
    let keep = if rng.one_in(2) {
        length.saturating_sub(rng.between(1, 4))
    } else {
        rng.between(0, length)
    };
    bytes.truncate(keep);
}

fn extend(rng: &mut Rng, bytes: &mut Vec<u8>) {
    for _ in 0..rng.between(1, 8) {
        let byte = if rng.one_in(2) { 0 } else { rng.byte() };
        bytes.push(byte);
    }
}

/// Lengths around the limits 16,384, 2,383 and 6,415 (the longest snapshots,
/// without and with names).
fn stretch(rng: &mut Rng, bytes: &mut Vec<u8>) {
    if !rng.one_in(4) {
        return extend(rng, bytes);
    }
    let length = rng.pick(&[16_383, 16_384, 16_385, 16_386, 2_383, 2_384, 6_415, 6_416]);
    bytes.resize(length.max(bytes.len()), 0);
}

fn replace_byte(rng: &mut Rng, bytes: &mut [u8]) {
    if !bytes.is_empty() {
        let position = rng.below(bytes.len());
        bytes[position] = rng.pick(&[0, 1, 2, 3, 62, 63, 64, 65, 127, 128, 129, 255]);
    }
}

/// Two neighbouring words, so that an offset and its size change together.
fn replace_pair(rng: &mut Rng, bytes: &mut [u8]) {
    let words = bytes.len() / 4;
    if words < 2 {
        return;
    }
    let position = 4 * rng.below(words - 1);
    let first = interesting_word(rng, bytes.len());
    let second = interesting_word(rng, bytes.len());
    let pair = if rng.one_in(6) {
        (0xFFFF_FFF0, 0x20)
    } else {
        (first, second)
    };
    bytes[position..position + 4].copy_from_slice(&u32::to_le_bytes(pair.0));
    bytes[position + 4..position + 8].copy_from_slice(&u32::to_le_bytes(pair.1));
}

fn replace_word(rng: &mut Rng, bytes: &mut [u8]) {
    if bytes.len() < 4 {
        return;
    }
    let position = if rng.one_in(8) {
        rng.below(bytes.len() - 3)
    } else {
        4 * rng.below(bytes.len() / 4)
    };
    let value = interesting_word(rng, bytes.len());
    bytes[position..position + 4].copy_from_slice(&value.to_le_bytes());
}

fn interesting_word(rng: &mut Rng, length: usize) -> u32 {
    match rng.below(5) {
        0 => rng.pick(&[
            0,
            1,
            0xFFFF_FFF0,
            0xFFFF_FFFC,
            0xFFFF_FFFF,
            0x8000_0000,
            0x7FFF_FFFF,
        ]),
        1 if rng.one_in(2) => rng.pick(&TYPES),
        1 => rng.pick(&[2, 4, 6, 7, 8]),
        2 => rng.pick(&[
            47, 48, 49, 55, 56, 57, 79, 80, 81, 87, 88, 89, 16_379, 16_380, 16_381, 16_384,
        ]),
        3 => (length as u32)
            .wrapping_sub(4)
            .wrapping_add(rng.below(7) as u32)
            .wrapping_sub(3),
        _ => rng.below(200) as u32,
    }
}
