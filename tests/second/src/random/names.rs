//! Random names: of entries and operations, and of messages, where they may be
//! longer than what is kept.

use super::Rng;
use crate::name_table::{Name, MAX_NAME};
use crate::operation::Operation;
use crate::read::{read, FieldName};

/// A name that may be kept: of no units often, of the most units now and then.
pub fn name(rng: &mut Rng) -> Name {
    let any = rng.between(1, MAX_NAME);
    let length = rng.pick(&[0, 0, 0, 1, 2, 9, any, MAX_NAME - 1, MAX_NAME, MAX_NAME]);
    units(rng, length)
}

/// A name of the most units.
pub fn longest_name(rng: &mut Rng) -> Name {
    units(rng, MAX_NAME)
}

/// One that may not be kept: too long, or with a zero unit at its start, its end or
/// anywhere.
pub fn wrong_name(rng: &mut Rng) -> Name {
    if rng.one_in(3) {
        let length = rng.pick(&[MAX_NAME + 1, MAX_NAME + 1, MAX_NAME + 2, 64, 127]);
        return units(rng, length);
    }
    let length = rng.between(1, MAX_NAME);
    let mut made = units(rng, length);
    let at = rng.below(length);
    made[rng.pick(&[0, length - 1, at])] = 0;
    made
}

/// Well-formed UTF-16 text with its terminator: short, or about as long as what
/// is kept of a name, or longer.
pub fn wide_text(rng: &mut Rng) -> Vec<u8> {
    let any = rng.between(0, 9);
    let longer = rng.between(MAX_NAME + 3, 300);
    let length = match rng.below(16) {
        0..=7 => any,
        8 => longer,
        _ => MAX_NAME - 1 + rng.below(4),
    };
    let mut made = units(rng, length);
    if length > MAX_NAME && rng.one_in(3) {
        // The last unit that is kept is half of a character.
        (made[MAX_NAME - 1], made[MAX_NAME]) = (0xD83D, 0xDE00);
    }
    made.push(0);
    made.iter().flat_map(|unit| unit.to_le_bytes()).collect()
}

/// None of them 0: of every kind, or nearly all halves of characters in any order,
/// or nearly all pairs, of which the end may part the last.
pub fn units(rng: &mut Rng, length: usize) -> Name {
    let kind = rng.below(6);
    let mut made = Name::new();
    while made.len() < length {
        match kind {
            0..=1 if !rng.one_in(6) => made.push(half(rng)),
            2 if !rng.one_in(9) => made.extend(pair(rng)),
            _ => made.push(any_unit(rng)),
        }
    }
    made.truncate(length);
    made
}

fn any_unit(rng: &mut Rng) -> u16 {
    // Units such as 0x0100 have a zero byte and are not zero; 0xD800 and
    // 0xDC00 are halves; the low ones are at the edges of what is printed.
    let any = rng.word() as u16;
    let low = rng.pick(&[0x1Fu16, 0x20, 0x22, 0x5C, 0x7E, 0x7F, 0x80, 0x120]);
    rng.pick(&[0x41, 0x100, 0xD800, 0xDC00, 0xFFFF, any | 1, low])
}

/// High or low, or right outside of both.
fn half(rng: &mut Rng) -> u16 {
    let [high, low] = pair(rng);
    rng.pick(&[high, high, low, low, 0xD7FF, 0xE000])
}

/// A high half and a low one, the first and the last of each often.
fn pair(rng: &mut Rng) -> [u16; 2] {
    let mut within = || {
        let any = rng.below(0x400) as u16;
        rng.pick(&[0, 0x3FF, any])
    };
    [0xD800 | within(), 0xDC00 | within()]
}

/// Another value in one unit of the name of a 0xD0 or a 0xD7: the first, the last
/// that is kept, one that is not, or any. False where there is none.
pub fn change_unit(rng: &mut Rng, m: &mut [u8]) -> bool {
    let place = read(m).ok().and_then(|said| said.place(FieldName::Name));
    let adds = matches!(m.first(), Some(0xD0 | 0xD7));
    let Some(part) = place.filter(|part| adds && part.size > 2) else {
        return false;
    };
    let last = part.size / 2 - 2;
    let any = rng.between(0, last);
    let chosen = rng.pick(&[0, MAX_NAME - 1, MAX_NAME, last, any]).min(last);
    let unit = &mut m[part.start + 2 * chosen..][..2];
    let other = u16::from_le_bytes([unit[0], unit[1]]) ^ rng.pick(&[1, 0x100]);
    unit.copy_from_slice(&if other == 0 { 2u16 } else { other }.to_le_bytes());
    true
}

/// Gives an operation that adds another name.
pub fn set_name(operation: &mut Operation, other: Name) {
    if let Operation::AddEntry(entry) = operation {
        entry.name = other;
    }
}
