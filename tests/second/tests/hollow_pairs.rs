//! Hollow pairs, with one number 0 and the other not: an absent field in 0xC1
//! (02 A1), number 8 in 0xD0 and 0xD7.

mod common;
use common::*;
use second::random::Rng;
use second::read::{field, read, FieldName};

type Pairs = &'static [(FieldName, usize)];

/// Fixed part and pairs of a 0xC1.
fn form(dnet_version: u32) -> (usize, Pairs) {
    match dnet_version {
        0..=6 => (84, &CONNECT_INFO_PAIRS[..5]),
        _ => (92, &CONNECT_INFO_PAIRS),
    }
}

/// The fixed part of a 0xC1 with every field absent.
fn bare(dnet_version: u32) -> Vec<u8> {
    let mut m = le(&[0xC1, 2, dnet_version]);
    m.resize(form(dnet_version).0, 0);
    m
}

/// A fixed part, and then the fields of these pairs.
fn with_fields(mut m: Vec<u8>, pairs: Pairs) -> Vec<u8> {
    for (which, pair) in pairs {
        let place = (m.len() as u32 - 4, content(*which).len() as u32);
        put_pair(&mut m, *pair, place);
        m.extend_from_slice(content(*which));
    }
    m
}

/// Numbers on both sides of each edge of a message, and the largest.
fn numbers(m: &[u8], fixed: usize) -> Vec<u32> {
    let (first, end) = (fixed as u32 - 4, m.len() as u32 - 4);
    let near = [1, 2, 3, first - 1, first, end - 1, end, end + 1, end + 4];
    let far = [16_384, 0x7FFF_FFFF, 0x8000_0000, 0xFFFF_FFFC, u32::MAX];
    [&near[..], &far[..]].concat()
}

/// The message with one field's pair made hollow, in every way; and that field.
fn hollowed(whole: &[u8], fixed: usize, pairs: Pairs) -> Vec<(Vec<u8>, FieldName)> {
    let mut list = Vec::new();
    for (which, pair) in pairs {
        for number in numbers(whole, fixed) {
            for hollow in [(number, 0), (0, number)] {
                let mut m = whole.to_vec();
                put_pair(&mut m, *pair, hollow);
                list.push((m, *which));
            }
        }
    }
    list
}

#[test]
fn absent_in_connect_info_and_the_other_fields_shown() {
    for dnet_version in [0, 6, 7, u32::MAX] {
        let (fixed, pairs) = form(dnet_version);
        let whole = with_fields(bare(dnet_version), pairs);
        for (m, hollow) in hollowed(&whole, fixed, pairs) {
            let message = read(&m).unwrap();
            assert_eq!(message.place(hollow), None);
            for (which, _) in pairs.iter().filter(|(which, _)| *which != hollow) {
                assert_eq!(field(&m, *which), content(*which));
            }
        }
    }
}

#[test]
fn flags_still_come_before_every_pair() {
    for dnet_version in [6, 7] {
        for (_, pair) in form(dnet_version).1 {
            for (numbers, number) in [((1, 0), 0), ((0, 1), 0), ((1, 1), 9)] {
                let mut m = bare(dnet_version);
                put_pair(&mut m, *pair, numbers);
                assert_eq!(read(&m).err().unwrap_or(0), number);
                m[4] = 3;
                assert_eq!(read(&m), Err(6));
            }
        }
    }
}

#[test]
fn number_8_in_add_player_and_create_group() {
    let both: [(Vec<u8>, Pairs); 2] = [
        (add_player(1, 1), &ADD_PLAYER_PAIRS),
        (create_group(1, 1), &CREATE_GROUP_PAIRS),
    ];
    for (bare, pairs) in both {
        let fixed = bare.len();
        let whole = with_fields(bare, pairs);
        assert!(read(&whole).is_ok());
        for (m, _) in hollowed(&whole, fixed, pairs) {
            assert_eq!(read(&m), Err(8));
        }
    }
}

/// A 0xC1 with a few bytes after its fixed part; each field absent, well placed,
/// or with any two numbers in its pair, 0 as often as not.
fn any_pairs(rng: &mut Rng) -> (Vec<u8>, Pairs) {
    let dnet_version = rng.pick(&[6, 7]);
    let (fixed, pairs) = form(dnet_version);
    let mut m = bare(dnet_version);
    m.extend((0..rng.between(2, 8)).map(|_| rng.pick(&[0u8, 0, 1])));
    let mut numbers = numbers(&m, fixed);
    numbers.extend(vec![0; numbers.len()]);
    for (_, pair) in pairs {
        let two = match rng.below(3) {
            0 => (0, 0),
            1 => (fixed as u32 - 4, rng.pick(&[1, 2])),
            _ => (rng.pick(&numbers), rng.pick(&numbers)),
        };
        put_pair(&mut m, *pair, two);
    }
    (m, pairs)
}

/// The same message with both numbers 0 where a pair is hollow.
fn cleared(m: &[u8], pairs: Pairs) -> Vec<u8> {
    let mut same = m.to_vec();
    for (_, pair) in pairs {
        if is_hollow(pair_at(m, *pair)) {
            put_pair(&mut same, *pair, (0, 0));
        }
    }
    same
}

#[test]
fn connect_info_is_never_refused_with_8() {
    let mut rng = Rng::new(71);
    // By number: all messages, and those with a hollow pair.
    let (mut seen, mut hollow) = ([0; 11], [0; 11]);
    for _ in 0..100_000 {
        let (m, pairs) = any_pairs(&mut rng);
        let number = read(&m).err().unwrap_or(0) as usize;
        seen[number] += 1;
        hollow[number] += usize::from(cleared(&m, pairs) != m);
    }
    assert_eq!(seen[0] + seen[9] + seen[10], 100_000, "{seen:?}");
    for number in [0, 9, 10] {
        let other = seen[number] - hollow[number];
        assert!(
            hollow[number] > 1_000 && other > 1_000,
            "{seen:?} {hollow:?}"
        );
    }
}

#[test]
fn whatever_stands_in_a_hollow_pair_the_reading_is_the_same() {
    let mut rng = Rng::new(72);
    let mut with_fields = 0;
    for _ in 0..100_000 {
        let (m, pairs) = any_pairs(&mut rng);
        let same = cleared(&m, pairs);
        assert_eq!(read(&m), read(&same));
        let shown = FieldName::ALL.map(|which| field(&m, which));
        assert_eq!(shown, FieldName::ALL.map(|which| field(&same, which)));
        with_fields += usize::from(same != m && shown.concat() != b"");
    }
    assert!(with_fields > 1_000, "{with_fields}");
}
