//! Create group, destroy group and delete player from group as messages (02 A5):
//! layouts, order of the checks, writers.

mod common;
use common::*;
use second::read::{field, read, FieldName, Message};
use second::write::*;

fn number(m: &[u8]) -> u32 {
    read(m).err().unwrap_or(0)
}

/// 0xD7 with the three pairs and a tail behind the fixed part, which ends at
/// position 60, offset 56.
fn with_pairs(name: (u32, u32), data: (u32, u32), url: (u32, u32), tail: &[u8]) -> Vec<u8> {
    let mut m = create_group(1, 1);
    for (pair, numbers) in [(36, name), (44, data), (52, url)] {
        put_pair(&mut m, pair, numbers);
    }
    m.extend_from_slice(tail);
    m
}

#[test]
fn create_group_word_by_word() {
    let mut m = le(&[0xD7, 1, 2, 3, 4, 5, 6, 7, 8, 59, 4, 58, 1, 56, 2]);
    m.extend(b"U\0DN\0\0\0");
    let Ok(Message::CreateGroup(g)) = read(&m) else {
        panic!("refused")
    };
    assert_eq!((g.requesting, g.context), (1, 2));
    let e = g.entry;
    assert_eq!((e.dpnid, e.owner, e.flags), (3, 4, 5));
    assert_eq!((e.version, e.version_not_used, e.dnet_version), (6, 7, 8));
    for (which, _) in CREATE_GROUP_PAIRS {
        assert_eq!(field(&m, which), content(which));
    }
    assert!(field(&m, FieldName::Password).is_empty());
}

#[test]
fn the_others_word_by_word() {
    let Ok(Message::DestroyGroup(d)) = read(&le(&[0xD8, 1, 2, 3, 4, 5])) else {
        panic!("refused")
    };
    let words = (d.group, d.version, d.version_not_used, d.requesting);
    assert_eq!((words, d.context), ((1, 2, 3, 4), 5));
    let Ok(Message::DeletePlayerFromGroup(d)) = read(&le(&[0xDA, 1, 2, 3, 4, 5, 6])) else {
        panic!("refused")
    };
    assert_eq!((d.group, d.player, d.version), (1, 2, 3));
    assert_eq!((d.version_not_used, d.requesting, d.context), (4, 5, 6));
}

#[test]
fn lengths() {
    for (m, exact) in [
        (create_group(1, 1), false),
        (destroy_group(1, 1), true),
        (delete_player_from_group(1, 1, 1), true),
    ] {
        assert_eq!(number(&m), 0);
        assert_eq!(number(&m[..4]), 4);
        assert_eq!(number(&m[..m.len() - 1]), 4);
        let longer = [m, vec![0]].concat();
        assert_eq!(number(&longer), if exact { 5 } else { 0 });
    }
}

/// 7 is of the ids that are kept; who asks may be nobody.
#[test]
fn ids() {
    assert_eq!(number(&create_group(0, 1)), 7);
    assert_eq!(number(&destroy_group(0, 1)), 7);
    assert_eq!(number(&delete_player_from_group(0, 1, 1)), 7);
    assert_eq!(number(&delete_player_from_group(1, 0, 1)), 7);
    // 4 and 5 come before it, 8 to 10 after it.
    assert_eq!(number(&destroy_group(0, 1)[..23]), 4);
    assert_eq!(number(&[destroy_group(0, 1), vec![0]].concat()), 5);
    let mut m = with_pairs((0, 1), (0, 0), (0, 0), &[]);
    assert_eq!(number(&m), 8);
    m[12] = 0;
    assert_eq!(number(&m), 7);
}

#[test]
fn fields_of_create_group() {
    let none = (0, 0);
    let name = |offset, size| number(&with_pairs((offset, size), none, none, &[0, 0]));
    assert_eq!(name(56, 2), 0);
    assert_eq!(name(55, 2), 9);
    assert_eq!(name(48, 2), 9);
    assert_eq!(name(56, 3), 9);
    assert_eq!(name(57, 2), 9);
    assert_eq!(name(56, 1), 10);
    assert_eq!(name(56, 0), 8);
    assert_eq!(name(0, 2), 8);
    for wrapping in [(0xFFFF_FFF0, 0x20), (0xFFFF_FFFC, 4), (56, u32::MAX)] {
        assert_eq!(number(&with_pairs(none, wrapping, none, &[0; 40])), 9);
    }
    // Field by field, in header order.
    assert_eq!(number(&with_pairs((56, 2), (0, 1), none, &[1, 1])), 10);
    assert_eq!(number(&with_pairs(none, (55, 1), (0, 1), &[1, 1])), 9);
    assert_eq!(number(&with_pairs(none, (0, 1), (55, 1), &[1, 1])), 8);
    assert_eq!(number(&with_pairs(none, (56, 2), (56, 2), &[1, 1])), 10);
}

#[test]
fn written_with_url_data_name_behind_the_fixed_part() {
    let values = CreateGroupValues {
        requesting: 1,
        context: 2,
        entry: EntryValues {
            dpnid: 3,
            owner: 4,
            flags: 5,
            version: 6,
            dnet_version: 8,
        },
    };
    let fields = EntryFields {
        url: Some(b"U\0"),
        data: Some(b"D"),
        name: Some(b"N\0\0\0"),
    };
    let mut expected = le(&[0xD7, 1, 2, 3, 4, 5, 6, 0, 8, 59, 4, 58, 1, 56, 2]);
    expected.extend(b"U\0DN\0\0\0");
    for room in 0..80 {
        let mut buf = vec![0xA5; room];
        let outcome = write_create_group(&mut buf, &values, &fields);
        let fits = room >= 67;
        assert_eq!(outcome.number, if fits { 0 } else { 12 });
        let written = if fits { &expected[..] } else { &[] };
        assert_eq!(outcome.written, written.len());
        assert_eq!(buf[..written.len()], *written);
        assert!(buf[written.len()..].iter().all(|b| *b == 0xA5));
    }
    let most = vec![7; 16_384 - 60];
    for (size, expected) in [(most.len(), 0), (most.len() - 1, 0)] {
        let data = EntryFields {
            data: Some(&most[..size]),
            ..EntryFields::default()
        };
        let outcome = write_create_group(&mut [0; 16_384], &values, &data);
        assert_eq!(outcome.number, expected);
        let one_more = EntryFields {
            url: Some(b"\0"),
            ..data
        };
        let outcome = write_create_group(&mut [0; 16_384], &values, &one_more);
        assert_eq!(outcome.number, if size == most.len() { 11 } else { 0 });
    }
}

#[test]
fn the_others_written() {
    let destroy = DestroyGroupValues {
        group: 1,
        version: 2,
        requesting: 3,
        context: 4,
    };
    let delete = MembershipValues {
        group: 1,
        player: 2,
        version: 3,
        requesting: 4,
        context: 5,
    };
    let mut buf = [0xA5; 28];
    assert_eq!(write_destroy_group(&mut buf[..23], &destroy).number, 12);
    assert_eq!(write_destroy_group(&mut buf, &destroy).written, 24);
    assert_eq!(buf[..24], le(&[0xD8, 1, 2, 0, 3, 4]));
    assert_eq!(buf[24..], [0xA5; 4]);
    let outcome = write_delete_player_from_group(&mut buf[..27], &delete);
    assert_eq!(outcome.number, 12);
    assert_eq!(
        write_delete_player_from_group(&mut buf, &delete).written,
        28
    );
    assert_eq!(buf[..], le(&[0xDA, 1, 2, 3, 0, 4, 5]));
}
