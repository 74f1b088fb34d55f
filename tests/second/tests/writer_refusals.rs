//! The writers of 0xD0 and 0xD7 refuse exactly as 01 lists, over random values;
//! all writers with fields refuse a given field of no bytes (02 A1).

mod common;
use common::*;
use second::random::{self, Rng};
use second::read::FieldName;
use second::write::*;

/// Runs a writer on a marked buffer and checks every byte that must stay.
fn run(length: usize, writer: impl Fn(&mut [u8]) -> Written) -> (Written, Vec<u8>) {
    let mut buf: Vec<u8> = (0..length).map(|i| i as u8 ^ 0xA5).collect();
    let before = buf.clone();
    let outcome = writer(&mut buf);
    assert!(outcome.number == 0 || outcome.written == 0);
    assert_eq!(buf[outcome.written..], before[outcome.written..]);
    buf.truncate(outcome.written);
    (outcome, buf)
}

/// Well-formed, ill-formed or empty text, or none.
fn any_text(rng: &mut Rng) -> Option<Vec<u8>> {
    match rng.below(5) {
        0 => Some(random::wide_text(rng)),
        1 => Some(random::byte_text(rng)),
        2 => Some((0..rng.below(7)).map(|_| rng.pick(&[0, 0, 1])).collect()),
        _ => None,
    }
}

/// The rules of 01 said once more, apart from the reader.
fn name_allowed(text: &Option<Vec<u8>>) -> bool {
    let Some(bytes) = text else { return true };
    let units: Vec<u16> = bytes
        .chunks(2)
        .map(|u| u.iter().map(|&b| u16::from(b)).sum())
        .collect();
    bytes.len() % 2 == 0
        && units.last() == Some(&0)
        && units[..units.len() - 1].iter().all(|&u| u != 0)
}

fn url_allowed(text: &Option<Vec<u8>>) -> bool {
    let Some(bytes) = text else { return true };
    bytes.last() == Some(&0) && bytes.iter().filter(|&&b| b == 0).count() == 1
}

fn not_empty(bytes: &Option<Vec<u8>>) -> bool {
    bytes.as_ref().is_none_or(|b| !b.is_empty())
}

#[test]
fn refused_exactly_as_listed() {
    let mut rng = Rng::new(4);
    let mut seen = [[0; 13]; 2];
    for _ in 0..50_000 {
        let (url, data, name) = (any_text(&mut rng), any_text(&mut rng), any_text(&mut rng));
        let dpnid = rng.pick(&[0, 1, 1, 2, 3]);
        let fields = EntryFields {
            url: url.as_deref(),
            data: data.as_deref(),
            name: name.as_deref(),
        };
        let values = EntryValues {
            dpnid,
            ..Default::default()
        };
        let group = CreateGroupValues {
            requesting: 0,
            context: rng.word(),
            entry: values,
        };
        let (length, of_group) = (rng.between(45, 110), rng.one_in(2));
        let (outcome, _) = run(length, |buf| match of_group {
            true => write_create_group(buf, &group, &fields),
            false => write_add_player(buf, &values, &fields),
        });
        let allowed = dpnid != 0 && url_allowed(&url) && not_empty(&data) && name_allowed(&name);
        let size = |field: &Option<Vec<u8>>| field.as_ref().map_or(0, Vec::len);
        let fixed = if of_group { 60 } else { 52 };
        let total = fixed + size(&url) + size(&data) + size(&name);
        let expected = match (allowed, total <= length) {
            (false, _) => Written {
                number: 11,
                written: 0,
            },
            (true, false) => Written {
                number: 12,
                written: 0,
            },
            (true, true) => Written {
                number: 0,
                written: total,
            },
        };
        assert_eq!(outcome, expected);
        seen[usize::from(of_group)][outcome.number as usize] += 1;
    }
    for seen in seen {
        assert!(seen[0] > 1000 && seen[11] > 1000 && seen[12] > 1000);
    }
}

/// A field that is given, and its bytes.
type Given<'a> = (FieldName, &'a [u8]);

fn of<'a>(given: &[Given<'a>], which: FieldName) -> Option<&'a [u8]> {
    let own = given.iter().find(|(name, _)| *name == which);
    own.map(|(_, bytes)| *bytes)
}

/// Each field of these pairs given and empty, alone and among all others. With
/// its content the message is written: nothing else is refused.
fn empty_is_11(pairs: &[(FieldName, usize)], write: impl Fn(&mut [u8], &[Given]) -> Written) {
    for (empty, _) in pairs {
        let with_content = |(which, _): &(FieldName, usize)| (*which, content(*which));
        let alone = vec![(*empty, content(*empty))];
        let among_all = pairs.iter().map(with_content).collect();
        for mut given in [alone, among_all] {
            let (written, _) = run(200, |buf| write(buf, &given));
            assert_eq!(written.number, 0);
            let own = given.iter_mut().find(|(which, _)| which == empty);
            own.unwrap().1 = b"";
            for length in [0, 20, written.written, 200] {
                let (outcome, _) = run(length, |buf| write(buf, &given));
                assert_eq!(outcome.number, 11);
            }
        }
    }
}

#[test]
fn an_empty_field_of_connect_info_is_11() {
    for (dnet_version, fields) in [(6, 5), (7, 6)] {
        let values = ConnectInfoValues {
            flags: 2,
            dnet_version,
            ..Default::default()
        };
        empty_is_11(&CONNECT_INFO_PAIRS[..fields], |buf, given| {
            let fields = ConnectInfoFields {
                alternate_address: of(given, FieldName::AlternateAddress),
                url: of(given, FieldName::Url),
                connect_data: of(given, FieldName::ConnectData),
                password: of(given, FieldName::Password),
                data: of(given, FieldName::Data),
                name: of(given, FieldName::Name),
            };
            write_connect_info(buf, &values, &fields)
        });
    }
}

#[test]
fn an_empty_field_of_add_player_or_create_group_is_11() {
    let entry = EntryValues {
        dpnid: 1,
        ..Default::default()
    };
    let group = CreateGroupValues {
        entry,
        ..Default::default()
    };
    for of_group in [false, true] {
        empty_is_11(&ADD_PLAYER_PAIRS, |buf, given| {
            let fields = EntryFields {
                url: of(given, FieldName::Url),
                data: of(given, FieldName::Data),
                name: of(given, FieldName::Name),
            };
            match of_group {
                true => write_create_group(buf, &group, &fields),
                false => write_add_player(buf, &entry, &fields),
            }
        });
    }
}
