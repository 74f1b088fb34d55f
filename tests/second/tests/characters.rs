//! How many characters a text has (02 A9): worked cases, what Rust's own decoder says, and the fields that carry the count.

mod common;
use common::*;
use second::characters::{of_units, of_url};
use second::name_table::MAX_NAME;
use second::random::{self, Rng};
use second::read::{field, read, FieldName};
use std::collections::BTreeSet;

const HIGH: u16 = 0xD83D;
const LOW: u16 = 0xDE00;

#[test]
fn no_unit_and_one() {
    assert_eq!(of_units(&[]), 0);
    for unit in [
        1, 0x41, 0xD7FF, 0xD800, 0xDBFF, 0xDC00, 0xDFFF, 0xE000, 0xFFFF,
    ] {
        assert_eq!(of_units(&[unit]), 1, "{unit:x}");
    }
}

#[test]
fn two_units_are_one_only_as_high_and_low() {
    assert_eq!(of_units(&[0x41, 0x42]), 2);
    assert_eq!(of_units(&[HIGH, LOW]), 1);
    assert_eq!(of_units(&[LOW, HIGH]), 2);
    assert_eq!(of_units(&[HIGH, HIGH]), 2);
    assert_eq!(of_units(&[LOW, LOW]), 2);
    assert_eq!(of_units(&[HIGH, 0x41]), 2);
    assert_eq!(of_units(&[0x41, LOW]), 2);
}

/// Each range from its first to its last unit, and what is right outside of it.
#[test]
fn ends_of_the_ranges() {
    let highs = [(0xD7FF, 2), (0xD800, 1), (0xDBFF, 1), (0xDC00, 2)];
    let lows = [(0xDBFF, 2), (0xDC00, 1), (0xDFFF, 1), (0xE000, 2)];
    for (first, count) in highs {
        assert_eq!(of_units(&[first, LOW]), count, "{first:x}");
    }
    for (second, count) in lows {
        assert_eq!(of_units(&[HIGH, second]), count, "{second:x}");
    }
}

/// A half belongs to one character at most, and to the one on its right side.
#[test]
fn halves_beside_pairs() {
    assert_eq!(of_units(&[HIGH, HIGH, LOW]), 2);
    assert_eq!(of_units(&[HIGH, LOW, LOW]), 2);
    assert_eq!(of_units(&[LOW, HIGH, LOW]), 2);
    assert_eq!(of_units(&[HIGH, LOW, HIGH]), 2);
    assert_eq!(of_units(&[HIGH, 0x41, LOW]), 3);
    assert_eq!(of_units(&[HIGH, LOW, HIGH, LOW]), 2);
    assert_eq!(of_units(&[LOW, HIGH, LOW, HIGH]), 3);
    assert_eq!(of_units(&[HIGH, HIGH, LOW, LOW]), 3);
    assert_eq!(of_units(&[0x41, HIGH, LOW, 0x42, HIGH]), 4);
}

#[test]
fn text_in_words() {
    for (text, count) in [("Test User", 9), ("José 😀", 6), ("\u{10000}\u{10FFFF}", 2)] {
        assert_eq!(of_units(&units(text)), count, "{text}");
    }
}

#[test]
fn as_many_units_as_are_kept() {
    assert_eq!(of_units(&[0x41; MAX_NAME]), 31);
    let pairs = [HIGH, LOW].repeat(16);
    assert_eq!(of_units(&pairs), 16);
    // The cut leaves a half alone, and it is one.
    assert_eq!(of_units(&pairs[..MAX_NAME]), 16);
    assert_eq!(of_units(&pairs[..MAX_NAME - 1]), 15);
    let at_the_cut = [&[0x41; 30][..], &[HIGH, LOW]].concat();
    assert_eq!(of_units(&at_the_cut), 31);
    assert_eq!(of_units(&at_the_cut[..MAX_NAME]), 31);
}

/// Something that we did not write: a lone half is an error of Rust's decoder, and counts as a character does.
#[test]
fn as_rust_decodes_utf_16() {
    let mut rng = Rng::new(81);
    let mut apart = BTreeSet::new();
    for _ in 0..50_000 {
        let length = rng.between(0, 40);
        let mut made = random::units(&mut rng, length);
        if length > 0 && rng.one_in(4) {
            made[rng.below(length)] = 0; // in no text, and a unit like any other
        }
        let decoded: Vec<_> = char::decode_utf16(made.iter().copied()).collect();
        assert_eq!(of_units(&made), decoded.len(), "{made:x?}");
        let pairs = decoded.iter().flatten().filter(|c| c.len_utf16() == 2);
        let lone = decoded.iter().filter(|c| c.is_err());
        apart.insert((pairs.count().min(9), lone.count().min(9)));
    }
    // None, one and nine or more of each, with any of these of the other.
    for pairs in [0, 1, 9] {
        assert!(
            [0, 1, 9].iter().all(|lone| apart.contains(&(pairs, *lone))),
            "{apart:?}"
        );
    }
}

#[test]
fn of_urls() {
    assert_eq!(of_url(b"\0"), 0);
    assert_eq!(of_url(b"x-directplay:/\0"), 14);
    assert_eq!(of_url(b"\xF0\x9F\x98\x80\0"), 4);
    assert_eq!(of_url(b"\x3D\xD8\x00"), 2);
}

/// 0xC1 with each field over the same bytes, where it may be: two units and a terminator, and the URL without the last byte.
#[test]
fn of_fields() {
    let mut m = le(&[0xC1, 4, 7]);
    m.resize(92, 0);
    m.extend([0x3D, 0xD8, 0x01, 0xDE, 0, 0]);
    for (which, pair) in CONNECT_INFO_PAIRS {
        let size = if which == FieldName::Url { 5 } else { 6 };
        put_pair(&mut m, pair, (88, size));
    }
    let message = read(&m).unwrap();
    for (which, expected) in [
        (FieldName::Name, text_part(92, 6, 1)),
        (FieldName::Data, free_part(92, 6)),
        (FieldName::Password, text_part(92, 6, 1)),
        (FieldName::ConnectData, free_part(92, 6)),
        (FieldName::Url, text_part(92, 5, 4)),
        (FieldName::AlternateAddress, free_part(92, 6)),
    ] {
        assert_eq!(message.place(which), Some(expected), "{which:?}");
    }
}

/// The name of a 0xD0 or a 0xD7 is counted whole; what is kept of it may have fewer characters, or as many.
#[test]
fn of_whole_names_and_kept_ones() {
    let pairs = [HIGH, LOW].repeat(40);
    let at_the_cut = [&[0x41; 30][..], &[HIGH, LOW]].concat();
    for (name, whole, kept) in [(&pairs, 40, 16), (&at_the_cut, 31, 31)] {
        for m in [add_named(400, 6, name), create_named(400, 6, name)] {
            let part = read(&m).unwrap().place(FieldName::Name).unwrap();
            assert_eq!(part.characters, Some(whole));
            let mut replica = replica_t();
            assert_eq!(replica.deliver(&m), applied(1, 0));
            assert_eq!(of_units(&replica.entries[3].name), kept);
        }
    }
}

/// Of every text of a random message: as Rust's decoder has it, or its bytes without the zero.
#[test]
fn of_random_messages() {
    let mut rng = Rng::new(82);
    let mut seen = [0; 6];
    for _ in 0..50_000 {
        let m = random::message(&mut rng, 100);
        let Ok(message) = read(&m) else { continue };
        for (which, seen) in FieldName::ALL.into_iter().zip(&mut seen) {
            let Some(part) = message.place(which) else {
                continue;
            };
            let bytes = field(&m, which);
            let units = bytes
                .chunks(2)
                .map(|u| u16::from_le_bytes([u[0], *u.last().unwrap()]));
            let expected = match which {
                FieldName::Name | FieldName::Password => {
                    Some(char::decode_utf16(units).count() - 1)
                }
                FieldName::Url => Some(bytes.iter().take_while(|b| **b != 0).count()),
                _ => None,
            };
            assert_eq!(part.characters, expected);
            *seen += 1;
        }
    }
    assert!(seen.iter().all(|count| *count > 500), "{seen:?}");
}
