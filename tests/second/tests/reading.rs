//! Reading: order of the checks, places of fields, capture V1.

mod common;
use common::*;
use second::random::{self, Rng};
use second::read::{field, read, FieldName, Message};

/// A connect info message as captured (tests/vectors/connect_info.hex).
const CAPTURE: &str = "
    C1000000 04000000 08000000 60000000 14000000 00000000 00000000 00000000
    00000000 00000000 00000000 00000000 00000000
    2381BE94ABA1FB48A2E723859E658936
    DA80EF611B6947429ADD1C7BED2BC13E
    58000000 08000000
    070208FE4134EF3D
    5400650073007400200055007300650072000000";

fn capture() -> Vec<u8> {
    let digits: Vec<u8> = CAPTURE.bytes().filter(u8::is_ascii_hexdigit).collect();
    digits
        .chunks(2)
        .map(|pair| u8::from_str_radix(std::str::from_utf8(pair).unwrap(), 16).unwrap())
        .collect()
}

#[test]
fn capture_read_with_all_values() {
    let m = capture();
    assert_eq!(m.len(), 120);
    let Ok(Message::ConnectInfo(c)) = read(&m) else {
        panic!("refused")
    };
    assert_eq!((c.flags, c.dnet_version), (4, 8));
    assert_eq!(c.instance_guid[..4], [0x23, 0x81, 0xBE, 0x94]);
    assert_eq!(c.instance_guid[12..], [0x9E, 0x65, 0x89, 0x36]);
    assert_eq!(c.application_guid[..4], [0xDA, 0x80, 0xEF, 0x61]);
    assert_eq!(c.application_guid[12..], [0xED, 0x2B, 0xC1, 0x3E]);
    assert_eq!(c.name, Some(text_part(100, 20, 9)));
    assert_eq!(c.alternate_address, Some(free_part(92, 8)));
    assert_eq!(
        (c.data, c.password, c.connect_data, c.url),
        (None, None, None, None)
    );
}

#[test]
fn capture_fields() {
    let m = capture();
    let wide: Vec<u8> = "Test User\0"
        .encode_utf16()
        .flat_map(u16::to_le_bytes)
        .collect();
    assert_eq!(field(&m, FieldName::Name), wide);
    let address = [7, 2, 0x08, 0xFE, 0x41, 0x34, 0xEF, 0x3D];
    assert_eq!(field(&m, FieldName::AlternateAddress), address);
    assert!(field(&m, FieldName::Url).is_empty());
    assert_eq!(read(&m[..119]), Err(9));
    assert!(field(&m[..119], FieldName::AlternateAddress).is_empty());
}

#[test]
fn capture_written_back() {
    use second::write::*;
    let m = capture();
    let Ok(Message::ConnectInfo(c)) = read(&m) else {
        panic!("refused")
    };
    let values = ConnectInfoValues {
        flags: c.flags,
        dnet_version: c.dnet_version,
        instance_guid: c.instance_guid,
        application_guid: c.application_guid,
    };
    let fields = ConnectInfoFields {
        name: Some(field(&m, FieldName::Name)),
        alternate_address: Some(field(&m, FieldName::AlternateAddress)),
        ..Default::default()
    };
    let mut buf = [0x55; 130];
    let outcome = write_connect_info(&mut buf, &values, &fields);
    assert_eq!(
        outcome,
        Written {
            number: 0,
            written: 120
        }
    );
    assert_eq!(buf[..120], m[..]);
    assert_eq!(buf[120..], [0x55; 10]);
}

#[test]
fn length_limits_come_first() {
    assert_eq!(read(&vec![0xFF; 16_385]), Err(1));
    assert_eq!(read(&vec![0xFF; 16_384]), Err(3));
    assert_eq!(read(&[0xD1, 0, 0]), Err(2));
    assert_eq!(read(&[0xD1, 0, 0, 0]), Err(4));
    assert_eq!(read(&[0xD1, 1, 0, 0]), Err(3)); // the whole word counts
}

#[test]
fn fixed_parts() {
    for (kind, fixed) in [
        (0xC1, 84),
        (0xD0, 52),
        (0xD1, 20),
        (0xD3, 16),
        (0xD7, 60),
        (0xD8, 24),
        (0xD9, 28),
        (0xDA, 28),
    ] {
        let mut m = le(&[kind, 2, 1, 1]);
        m.resize(fixed, 0);
        assert_ne!(read(&m), Err(4));
        assert_eq!(read(&m[..fixed - 1]), Err(4));
        m.push(0);
        let fixed_length = matches!(kind, 0xD1 | 0xD3 | 0xD8 | 0xD9 | 0xDA);
        assert_eq!(read(&m) == Err(5), fixed_length);
    }
}

/// Requests, and what is near the types that are listed.
#[test]
fn other_types_are_3() {
    let listed = [0xC1, 0xD0, 0xD1, 0xD3, 0xD7, 0xD8, 0xD9, 0xDA];
    for kind in 0..=0x1FF {
        let mut m = le(&[kind]);
        m.resize(100, 1);
        assert_eq!(read(&m) == Err(3), !listed.contains(&kind), "{kind:x}");
    }
}

#[test]
fn extended_form_needs_92_bytes() {
    let mut m = le(&[0xC1, 2, 7]);
    m.resize(91, 0);
    assert_eq!(read(&m), Err(4));
    m.push(0);
    assert!(read(&m).is_ok());
    m[8..12].copy_from_slice(&[0xFF; 4]);
    assert!(read(&m).is_ok());
}

#[test]
fn flags_and_ids() {
    let mut m = le(&[0xC1, 3, 6]);
    m.resize(84, 0);
    for (flags, expected) in [(0, 6), (1, 6), (2, 0), (3, 6), (4, 0), (6, 6)] {
        m[4] = flags;
        assert_eq!(read(&m).err().unwrap_or(0), expected);
    }
    // Flags before fields: a name in the fixed part is 9 once the flags are right.
    put_pair(&mut m, 12, (1, 1));
    assert_eq!(read(&m), Err(6));
    m[4] = 2;
    assert_eq!(read(&m), Err(9));
    assert_eq!(read(&add_player(0, 1)), Err(7));
    assert_eq!(read(&destroy_player(0, 1)), Err(7));
    assert_eq!(read(&add_player_to_group(0, 1, 1)), Err(7));
    assert_eq!(read(&add_player_to_group(1, 0, 1)), Err(7));
    assert_eq!(read(&le(&[0xD3, 0, 1, 0])), Err(7));
    assert_eq!(read(&le(&[0xD3, 0, 0, 1])), Err(7));
    assert!(read(&le(&[0xD3, 0, 1, 1])).is_ok());
}

/// 0xD0 with the three pairs and a tail after the fixed part.
fn with_pairs(name: (u32, u32), data: (u32, u32), url: (u32, u32), tail: &[u8]) -> Vec<u8> {
    let (n, d, u) = (name, data, url);
    let mut m = le(&[0xD0, 1, 0, 0, 1, 9, 7, n.0, n.1, d.0, d.1, u.0, u.1]);
    m.extend_from_slice(tail);
    m
}

#[test]
fn checks_8_9_10_field_by_field() {
    let none = (0, 0);
    // An ill-formed name (10) comes before a data field out of range (9) or half absent (8).
    assert_eq!(read(&with_pairs((48, 2), (999, 1), none, &[1, 1])), Err(10));
    assert_eq!(read(&with_pairs((48, 2), (0, 1), none, &[1, 1])), Err(10));
    assert_eq!(read(&with_pairs(none, (999, 1), (0, 1), &[1, 1])), Err(9));
    assert_eq!(read(&with_pairs(none, (0, 1), (999, 1), &[1, 1])), Err(8));
    // Within one field 8 comes first, then 9, then 10.
    assert_eq!(read(&with_pairs((999, 3), none, none, &[])), Err(9));
    assert_eq!(read(&with_pairs((48, 3), none, none, &[1, 0, 0])), Err(10));
    // An id of 0 comes before all fields.
    let mut m = with_pairs((48, 2), none, none, &[1, 1]);
    m[4] = 0;
    assert_eq!(read(&m), Err(7));
}

#[test]
fn sums_do_not_wrap() {
    let pairs = [
        (0xFFFF_FFF0, 0x20),
        (0xFFFF_FFFC, 4),
        (0xFFFF_FFFF, 2),
        (48, 0xFFFF_FFFF),
    ];
    for data in pairs {
        assert_eq!(read(&with_pairs((0, 0), data, (0, 0), &[0; 40])), Err(9));
    }
}

#[test]
fn texts() {
    let name = |bytes: &[u8]| {
        read(&with_pairs((48, bytes.len() as u32), (0, 0), (0, 0), bytes))
            .err()
            .unwrap_or(0)
    };
    assert_eq!(name(&[0, 0]), 0);
    assert_eq!(name(&[0, 1, 1, 0, 0, 0]), 0); // zero bytes, no zero unit inside
    assert_eq!(name(&[1, 0, 0, 1, 0, 0]), 0); // two zero bytes across two units
    assert_eq!(name(&[0]), 10);
    assert_eq!(name(&[0, 0, 0]), 10);
    assert_eq!(name(&[1, 0]), 10);
    assert_eq!(name(&[0, 0, 0, 0]), 10);
    assert_eq!(name(&[0, 0, 1, 0, 0, 0]), 10);
    let url = |bytes: &[u8]| {
        read(&with_pairs((0, 0), (0, 0), (48, bytes.len() as u32), bytes))
            .err()
            .unwrap_or(0)
    };
    assert_eq!(url(&[0]), 0);
    assert_eq!(url(&[1, 2, 0]), 0);
    assert_eq!(url(&[1]), 10);
    assert_eq!(url(&[0, 0]), 10);
    assert_eq!(url(&[1, 0, 1, 0]), 10);
}

#[test]
fn fields_may_overlap_and_start_at_odd_positions() {
    let m = with_pairs((49, 4), (48, 5), (52, 1), &[9, 1, 0, 0, 0]);
    let Ok(Message::AddPlayer(a)) = read(&m) else {
        panic!("refused")
    };
    assert_eq!(
        (a.name, a.data, a.url),
        (
            Some(text_part(53, 4, 1)),
            Some(free_part(52, 5)),
            Some(text_part(56, 1, 0))
        )
    );
    assert_eq!(a.version_not_used, 9);
    assert_eq!(field(&m, FieldName::Data), &m[52..57]);
    assert!(field(&m, FieldName::Password).is_empty());
}

#[test]
fn a_field_is_part_of_the_message_itself() {
    let m = capture();
    let shown = field(&m, FieldName::Name);
    assert_eq!(shown.as_ptr(), m[100..].as_ptr());
}

#[test]
fn an_accepted_message_holds_its_fields() {
    let mut rng = Rng::new(11);
    for _ in 0..50_000 {
        let m = random::message(&mut rng, 100);
        let message = read(&m);
        for which in FieldName::ALL {
            let place = message
                .as_ref()
                .ok()
                .and_then(|accepted| accepted.place(which));
            let expected = place.map_or(&m[..0], |p| &m[p.start..p.start + p.size]);
            assert_eq!(field(&m, which), expected);
        }
    }
}
