//! The writers: 11 before 12, layout, bytes that stay.

mod common;
use common::{free_part, text_part};
use second::read::{read, Message};
use second::write::*;

const GUID: [u8; 16] = [9; 16];

fn client(dnet_version: u32) -> ConnectInfoValues {
    ConnectInfoValues {
        flags: 2,
        dnet_version,
        instance_guid: GUID,
        application_guid: [8; 16],
    }
}

/// Runs a writer on a marked buffer and checks every byte that must stay.
fn run(length: usize, writer: impl Fn(&mut [u8]) -> Written) -> (Written, Vec<u8>) {
    let mut buf: Vec<u8> = (0..length).map(|i| i as u8 ^ 0xA5).collect();
    let before = buf.clone();
    let outcome = writer(&mut buf);
    assert!(outcome.number == 0 || outcome.written == 0);
    assert_eq!(buf[outcome.written..], before[outcome.written..]);
    buf.truncate(outcome.written);
    (outcome, buf)
}

fn connect_number(values: &ConnectInfoValues, fields: &ConnectInfoFields, length: usize) -> u32 {
    run(length, |buf| write_connect_info(buf, values, fields))
        .0
        .number
}

#[test]
fn field_order_on_the_wire() {
    let fields = ConnectInfoFields {
        alternate_address: Some(b"A"),
        url: Some(b"U\0"),
        connect_data: Some(b"C"),
        password: Some(b"PP\0\0"),
        data: Some(b"D"),
        name: Some(b"NN\0\0"),
    };
    let (outcome, m) = run(200, |buf| write_connect_info(buf, &client(7), &fields));
    assert_eq!(
        outcome,
        Written {
            number: 0,
            written: 92 + 13
        }
    );
    assert_eq!(m[92..], *b"AU\0CPP\0\0DNN\0\0");
    let Ok(Message::ConnectInfo(c)) = read(&m) else {
        panic!("refused")
    };
    assert_eq!(c.alternate_address, Some(free_part(92, 1)));
    assert_eq!(c.url, Some(text_part(93, 2, 1)));
    assert_eq!(c.connect_data, Some(free_part(95, 1)));
    assert_eq!(c.password, Some(text_part(96, 4, 1)));
    assert_eq!(c.data, Some(free_part(100, 1)));
    assert_eq!(c.name, Some(text_part(101, 4, 1)));
}

#[test]
fn add_player_order_and_not_used_word() {
    let values = EntryValues {
        dpnid: 1,
        owner: 2,
        flags: 3,
        version: 4,
        dnet_version: 5,
    };
    let fields = EntryFields {
        url: Some(b"U\0"),
        data: Some(b"D"),
        name: Some(b"\0\0"),
    };
    let (_, m) = run(100, |buf| write_add_player(buf, &values, &fields));
    assert_eq!(m[52..], *b"U\0D\0\0");
    assert_eq!(m[20..24], [0; 4]);
    let Ok(Message::AddPlayer(a)) = read(&m) else {
        panic!("refused")
    };
    assert_eq!(
        (a.dpnid, a.owner, a.flags, a.version, a.dnet_version),
        (1, 2, 3, 4, 5)
    );
}

#[test]
fn refused_values_are_11_even_with_a_short_buffer() {
    for length in [0, 500] {
        let none = ConnectInfoFields::default();
        let flags_3 = ConnectInfoValues {
            flags: 3,
            ..client(7)
        };
        assert_eq!(connect_number(&flags_3, &none, length), 11);
        for fields in [
            ConnectInfoFields {
                name: Some(b""),
                ..none
            },
            ConnectInfoFields {
                name: Some(b"\0"),
                ..none
            },
            ConnectInfoFields {
                name: Some(b"NN"),
                ..none
            },
            ConnectInfoFields {
                password: Some(b"\0\0\0\0"),
                ..none
            },
            ConnectInfoFields {
                url: Some(b"U"),
                ..none
            },
            ConnectInfoFields {
                url: Some(b"\0\0"),
                ..none
            },
            ConnectInfoFields {
                data: Some(b""),
                ..none
            },
            ConnectInfoFields {
                connect_data: Some(b""),
                ..none
            },
            ConnectInfoFields {
                alternate_address: Some(b""),
                ..none
            },
        ] {
            assert_eq!(connect_number(&client(7), &fields, length), 11);
        }
    }
}

#[test]
fn alternate_address_needs_dnet_version_7() {
    let fields = ConnectInfoFields {
        alternate_address: Some(b"A"),
        ..Default::default()
    };
    assert_eq!(connect_number(&client(6), &fields, 0), 11);
    assert_eq!(connect_number(&client(6), &fields, 500), 11);
    assert_eq!(connect_number(&client(7), &fields, 92), 12);
    assert_eq!(connect_number(&client(7), &fields, 93), 0);
    assert_eq!(connect_number(&client(u32::MAX), &fields, 93), 0);
}

#[test]
fn ids_of_0_are_11() {
    let none = EntryFields::default();
    let player_0 = EntryValues {
        version: 1,
        ..Default::default()
    };
    assert_eq!(
        run(52, |buf| write_add_player(buf, &player_0, &none))
            .0
            .number,
        11
    );
    let leaving_0 = DestroyPlayerValues {
        version: 1,
        ..Default::default()
    };
    assert_eq!(
        run(20, |buf| write_destroy_player(buf, &leaving_0))
            .0
            .number,
        11
    );
    for (group, player, expected) in [(0, 1, 11), (1, 0, 11), (1, 1, 0)] {
        let request = RequestAddPlayerToGroupValues {
            context: 0,
            group,
            player,
        };
        let add = MembershipValues {
            group,
            player,
            ..Default::default()
        };
        let (outcome, _) = run(16, |buf| write_request_add_player_to_group(buf, &request));
        assert_eq!(outcome.number, expected);
        assert_eq!(
            run(28, |buf| write_add_player_to_group(buf, &add)).0.number,
            expected
        );
        let (outcome, _) = run(28, |buf| write_delete_player_from_group(buf, &add));
        assert_eq!(outcome.number, expected);
    }
    let create = CreateGroupValues {
        requesting: 1,
        context: 1,
        entry: player_0,
    };
    let (outcome, _) = run(60, |buf| write_create_group(buf, &create, &none));
    assert_eq!(outcome.number, 11);
    let destroy = DestroyGroupValues {
        group: 0,
        version: 1,
        requesting: 1,
        context: 1,
    };
    let (outcome, _) = run(24, |buf| write_destroy_group(buf, &destroy));
    assert_eq!(outcome.number, 11);
}

#[test]
fn total_limit() {
    let big = vec![7; 16_385];
    for (size, expected) in [
        (16_384 - 84, 0),
        (16_384 - 83, 11),
        (16_384, 11),
        (16_385, 11),
    ] {
        let fields = ConnectInfoFields {
            data: Some(&big[..size]),
            ..Default::default()
        };
        assert_eq!(connect_number(&client(6), &fields, 20_000), expected);
        let too_short = if expected == 0 { 12 } else { expected };
        assert_eq!(connect_number(&client(6), &fields, 10), too_short);
    }
}

#[test]
fn short_buffers_are_12() {
    let destroy = DestroyPlayerValues {
        dpnid: 1,
        version: 2,
        reason: 3,
    };
    assert_eq!(
        run(19, |buf| write_destroy_player(buf, &destroy)).0.number,
        12
    );
    let (outcome, m) = run(20, |buf| write_destroy_player(buf, &destroy));
    assert_eq!(
        outcome,
        Written {
            number: 0,
            written: 20
        }
    );
    assert_eq!(
        m,
        [0xD1, 0, 0, 0, 1, 0, 0, 0, 2, 0, 0, 0, 0, 0, 0, 0, 3, 0, 0, 0]
    );
    let none = ConnectInfoFields::default();
    assert_eq!(connect_number(&client(6), &none, 83), 12);
    assert_eq!(connect_number(&client(6), &none, 84), 0);
    assert_eq!(connect_number(&client(7), &none, 91), 12);
    assert_eq!(connect_number(&client(7), &none, 92), 0);
}
