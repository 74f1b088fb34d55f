//! Reading: random and damaged messages, small ones with every value near an edge, and a sweep over lengths and types.

use crate::bridge;
use crate::characters::halves;
use crate::comparison::{hex, Call, Comparison, Verdict};
use crate::events::FIELDS;
use dp8::Reading;
use second::message::FieldName;
use second::random::{self, Rng};

/// Compares the whole reading, and each field's bytes.
pub fn compare_read(c: &mut Comparison, m: &[u8]) -> Verdict {
    let proved = dp8::read(m);
    let shown = second::read::read(m);
    let number = shown.as_ref().err().copied().unwrap_or(0);
    let expected = bridge::reading(&shown);
    let fields = shown.map_or(Vec::new(), |_| second_fields(m));
    let outcomes = ((proved, proved_fields(m, &proved)), (expected, fields));
    c.same((Call::Read, number), || hex(m), outcomes.0, outcomes.1)?;
    note_message(c, m, number);
    Ok(())
}

/// Notes what a message of a type is refused for, or how its fields are read.
fn note_message(c: &mut Comparison, m: &[u8], number: u32) {
    // Both sides may be wrong alike.
    assert!(number != 8 || m[0] != 0xC1, "8 for a 0xC1: {}", hex(m));
    match number {
        0 => {
            c.typed_event(m[0], "read");
            note_fields(c, m);
        }
        4 => c.typed_event(m[0], "refused with 4"),
        5 => c.typed_event(m[0], "refused with 5"),
        6 => c.typed_event(m[0], "refused with 6"),
        7 => c.typed_event(m[0], without_id(m)),
        8 => c.field_event(refused_field(m), "refused with 8 for its"),
        9 => note_misplaced(c, m),
        10 => c.field_event(refused_field(m), "refused with 10 for its"),
        _ => {}
    }
}

/// The id that is 0, of a type that has two; its player only where its group is right.
fn without_id(m: &[u8]) -> &'static str {
    let group = match m[0] {
        0xD3 => 8,
        0xD9 | 0xDA => 4,
        _ => return "refused with 7",
    };
    match word(m, group) {
        0 => "refused with 7 for its group",
        _ => "refused with 7 for its player",
    }
}

/// A field that is refused with 9, and whether it would be read if it started one byte later, right behind the fixed part.
fn note_misplaced(c: &mut Comparison, m: &[u8]) {
    let (form, field) = refused_field(m);
    c.field_event((form, field), "refused with 9 for its");
    let (pair, offset) = (pairs(m).1[field], first_offset(m));
    let (start, size) = (word(m, pair) as usize, word(m, pair + 4) as usize);
    if start + 1 == offset && offset + 4 + size <= m.len() {
        c.field_event(
            (form, field),
            "refused with 9 one byte before that, for its",
        );
    }
}

/// Notes fields that stand where none may stand before, what texts have, and hollow pairs of a 0xC1.
fn note_fields(c: &mut Comparison, m: &[u8]) {
    let has_fields = matches!(m[0], 0xC1 | 0xD0 | 0xD7);
    if !has_fields {
        return;
    }
    let (form, pairs) = pairs(m);
    for (k, p) in pairs.iter().enumerate() {
        if word(m, *p) as usize == first_offset(m) && word(m, p + 4) != 0 {
            c.field_event((form, k), "read right behind the fixed part, its");
        }
    }
    note_texts(c, m, form);
    if m[0] == 0xC1 {
        note_hollow_pairs(c, m);
    }
}

/// Notes what name and password have of halves, and whether a URL has characters.
fn note_texts(c: &mut Comparison, m: &[u8], form: usize) {
    let (form_name, fields) = FIELDS[form];
    for (k, field) in fields.iter().enumerate() {
        let which = match *field {
            "name" => FieldName::Name,
            "password" => FieldName::Password,
            "url" => FieldName::Url,
            _ => continue,
        };
        match (second::read::field(m, which), which) {
            ([], _) => {}
            ([0], FieldName::Url) => c.field_event((form, k), "read with no character in its"),
            (_, FieldName::Url) => c.field_event((form, k), "read with characters in its"),
            (text, _) => {
                let found = halves(&second::read::units(text));
                c.halves_event((form_name, field), found);
            }
        }
    }
}

/// Notes each field of a 0xC1 that has one number 0 in its pair, and the other not.
fn note_hollow_pairs(c: &mut Comparison, m: &[u8]) {
    let (form, pairs) = pairs(m);
    for (k, p) in pairs.iter().enumerate() {
        match (word(m, *p), word(m, p + 4)) {
            (0, 0) => {}
            (0, _) => c.field_event((form, k), "read with a size alone for its"),
            (offset, 0) => {
                c.field_event((form, k), "read with an offset alone for its");
                if offset as usize + 4 > m.len() {
                    c.field_event((form, k), "read with an offset alone past the end for its");
                }
            }
            _ => {}
        }
    }
}

/// The form of a message with fields, as `FIELDS` has it, and where its offsets stand.
fn pairs(m: &[u8]) -> (usize, &'static [usize]) {
    match (m[0], word(m, 8)) {
        (0xD0, _) => (2, &[28, 36, 44]),
        (0xD7, _) => (3, &[36, 44, 52]),
        (_, 0..=6) => (0, &[12, 20, 28, 36, 44]),
        _ => (1, &[12, 20, 28, 36, 44, 84]),
    }
}

/// The first offset that a field of such a message may have.
fn first_offset(m: &[u8]) -> usize {
    [84, 92, 52, 60][pairs(m).0] - 4
}

/// The form, and the field that a message of 8, 9 or 10 is refused for: the first that is still refused where all after it are absent.
fn refused_field(m: &[u8]) -> (usize, usize) {
    let (form, pairs) = pairs(m);
    let mut one_more = m.to_vec();
    pairs.iter().for_each(|p| one_more[*p..p + 8].fill(0));
    for (k, p) in pairs.iter().enumerate() {
        one_more[*p..p + 8].copy_from_slice(&m[*p..p + 8]);
        if second::read::read(&one_more).is_err() {
            return (form, k);
        }
    }
    unreachable!("refused with 8, 9 or 10, and for no field")
}

fn second_fields(m: &[u8]) -> Vec<u8> {
    let fields = FieldName::ALL.iter();
    fields
        .flat_map(|which| second::read::field(m, *which).to_vec())
        .collect()
}

fn proved_fields(m: &[u8], r: &Reading) -> Vec<u8> {
    r.parts()
        .iter()
        .flat_map(|part| part.of(m).unwrap_or(&[]))
        .copied()
        .collect()
}

/// A message for reading alone: the second implementation's generator, or a small message of few values.
pub fn any_message(rng: &mut Rng) -> Vec<u8> {
    match rng.below(5) {
        0 => random::message(rng, 100),
        1 => random::typed_noise(rng),
        2 => fixed_length_message(rng),
        _ => small_message(rng),
    }
}

/// 0xC1, 0xD0 or 0xD7 with a few bytes of 0 and 1 after the fixed part, and offsets and sizes near every edge.
fn small_message(rng: &mut Rng) -> Vec<u8> {
    let kind = rng.pick(&[0xC1, 0xC1, 0xD0, 0xD7]);
    let dnet = rng.pick(&[0u32, 6, 7, 8, u32::MAX]);
    let fixed = match (kind, dnet) {
        (0xD0, _) => 52,
        (0xD7, _) => 60,
        (_, 0..=6) => 84,
        _ => 92,
    };
    let extra = rng.between(0, 8);
    let mut m = vec![0; fixed];
    put(&mut m, 0, kind);
    if kind == 0xC1 {
        put(&mut m, 4, rng.pick(&[2, 2, 2, 4, 4, 4, 0, 6, 0x0200_0000]));
        put(&mut m, 8, dnet);
    } else {
        let id = rng.pick(&[1, 1, 1, 1, 1, 1, 1, 0, 0x100]);
        put(&mut m, if kind == 0xD0 { 4 } else { 12 }, id);
    }
    m.extend((0..extra).map(|_| rng.pick(&[0u8, 0, 1])));
    let pairs = pairs(&m).1;
    if extra > 0 && rng.one_in(6) {
        // One field alone, right behind the fixed part or one byte before that.
        let pair = rng.pick(pairs);
        put(&mut m, pair, (fixed - 4 - rng.below(2)) as u32);
        put(&mut m, pair + 4, rng.between(1, extra) as u32);
        return m;
    }
    for pair in pairs {
        small_pair(rng, &mut m, *pair, fixed);
    }
    m
}

/// Absent, well placed, or one of offset and size a little off.
fn small_pair(rng: &mut Rng, m: &mut [u8], pair: usize, fixed: usize) {
    let first_offset = fixed - 4;
    let extra = m.len() - fixed;
    let (offset, size) = match rng.below(16) {
        0..=5 => (0, 0),
        6 => (rng.below(2) * first_offset, rng.below(3)),
        7 => (first_offset - rng.between(0, 4), rng.between(0, 4)),
        8 => (first_offset + extra + rng.below(2), rng.between(0, 2)),
        _ => {
            let start = rng.between(0, extra);
            let over = usize::from(rng.one_in(6));
            let size = rng.between(0, extra - start + over);
            (first_offset + start, size)
        }
    };
    put(m, pair, offset as u32);
    put(m, pair + 4, size as u32);
}

/// A message of fixed length, or about that, with an id 0 now and then.
fn fixed_length_message(rng: &mut Rng) -> Vec<u8> {
    let known = [
        (0xD1u32, 20),
        (0xD3, 16),
        (0xD8, 24),
        (0xD9, 28),
        (0xDA, 28),
    ];
    let (kind, fixed) = rng.pick(&known);
    let length = rng.pick(&[fixed, fixed, fixed, fixed, fixed - 1, fixed + 1, 4, 7]);
    let mut m = kind.to_le_bytes().to_vec();
    while m.len() < length {
        let any = rng.word();
        let word = rng.pick(&[1, 2, 100, 0, 0x100, 0x8000_0000, any]);
        m.extend_from_slice(&word.to_le_bytes());
    }
    m.truncate(length);
    m
}

fn word(m: &[u8], position: usize) -> u32 {
    u32::from_le_bytes(std::array::from_fn(|k| m[position + k]))
}

fn put(m: &mut [u8], position: usize, value: u32) {
    m[position..position + 4].copy_from_slice(&value.to_le_bytes());
}

/// Every length around every limit for each type, and type words that differ in one byte.
pub fn sweep(c: &mut Comparison) -> Verdict {
    for kind in [0xC1u32, 0xD0, 0xD1, 0xD3, 0xD7, 0xD8, 0xD9, 0xDA] {
        for length in (0..=100).chain(16_380..=16_390) {
            for dnet in [6u32, 7] {
                let mut m = vec![0; length.max(12)];
                put(&mut m, 0, kind);
                put(&mut m, 4, 2);
                put(&mut m, 8, dnet);
                m.truncate(length);
                c.messages += 1;
                compare_read(c, &m)?;
            }
        }
        for bit in 0..32 {
            let mut m = vec![1; 28];
            put(&mut m, 0, kind ^ (1 << bit));
            c.messages += 1;
            compare_read(c, &m)?;
        }
    }
    for kind in 0..=255u32 {
        c.messages += 1;
        compare_read(c, &kind.to_le_bytes())?;
        c.messages += 1;
        compare_read(c, &kind.to_be_bytes())?;
    }
    Ok(())
}
