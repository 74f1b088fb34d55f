//! Every case of 01 "Cases on each side".

mod common;
use common::*;
use second::read::{field, read, FieldName, Message};
use second::replica::{Answer, Replica};
use second::snapshot;

#[test]
fn empty_message_is_2() {
    assert_eq!(read(&[]), Err(2));
}

#[test]
fn unknown_type_is_3() {
    assert_eq!(read(&[0xFF, 0, 0, 0]), Err(3));
}

#[test]
fn destroy_player_of_19_20_and_21_bytes() {
    let m = destroy_player(100, 7);
    assert_eq!(read(&m[..19]), Err(4));
    assert!(matches!(read(&m), Ok(Message::DestroyPlayer(d)) if d.dpnid == 100));
    let longer = [m, vec![0]].concat();
    assert_eq!(read(&longer), Err(5));
}

#[test]
fn connect_info_of_84_bytes_with_dnet_6_and_7() {
    let mut m = le(&[0xC1, 2, 6]);
    m.resize(84, 0);
    assert!(matches!(read(&m), Ok(Message::ConnectInfo(c)) if c.dnet_version == 6));
    m[8] = 7;
    assert_eq!(read(&m), Err(4));
}

fn add_player_of_54_bytes(name_offset: u32, name_size: u32) -> Vec<u8> {
    let mut m = le(&[0xD0, 1, 0, 0, 0, 0, 0, name_offset, name_size, 0, 0, 0, 0]);
    m.extend([0, 0]);
    m
}

#[test]
fn add_player_of_54_bytes_with_a_name() {
    let m = add_player_of_54_bytes(48, 2);
    assert!(matches!(read(&m), Ok(Message::AddPlayer(a)) if a.name == Some(text_part(52, 2, 0))));
    assert_eq!(field(&m, FieldName::Name), [0, 0]);
    assert_eq!(read(&add_player_of_54_bytes(47, 2)), Err(9));
    assert_eq!(read(&add_player_of_54_bytes(48, 3)), Err(9));
    assert_eq!(read(&add_player_of_54_bytes(48, 0)), Err(8));
}

#[test]
fn versions_5_6_37_38_from_t() {
    let answer = |version| replica_t().deliver(&add_player(400, version));
    assert_eq!(answer(5), Answer::Refused(14));
    assert_eq!(answer(6), applied(1, 0));
    assert_eq!(answer(37), Answer::Waits);
    assert_eq!(answer(38), Answer::Refused(15));
}

#[test]
fn a_waiting_version_sent_again() {
    let mut replica = replica_t();
    assert_eq!(replica.deliver(&destroy_player(100, 7)), Answer::Waits);
    let before = replica.clone();
    assert_eq!(
        replica.deliver(&destroy_player(100, 7)),
        Answer::Refused(16)
    );
    assert_eq!(
        replica.deliver(&destroy_player(200, 7)),
        Answer::Refused(17)
    );
    assert_eq!(replica, before);
}

#[test]
fn t_and_its_two_messages() {
    let mut replica = replica_t();
    assert_eq!(replica.deliver(&destroy_player(100, 7)), Answer::Waits);
    assert_eq!(replica.deliver(&add_player(400, 6)), applied(2, 0));
    let entries = vec![entry(1, 200, 3), entry(2, 300, 4), entry(1, 400, 6)];
    let memberships = vec![(300, 200)];
    let expected = Replica {
        version: 7,
        host: 0,
        entries,
        memberships,
        pending: vec![],
    };
    assert_eq!(replica, expected);
}

#[test]
fn fresh_snapshot() {
    let mut expected = vec![0, 0, 0, 0x0B, 2];
    expected.extend([0; 10]);
    assert_eq!(written_snapshot(&Replica::fresh()), expected);
    assert_eq!(snapshot::read(&expected), Ok(Replica::fresh()));
    expected[4] = 1; // the format before names
    assert_eq!(snapshot::read(&expected), Ok(Replica::fresh()));
}

#[test]
fn at_the_last_version_every_operation_is_14() {
    let start = Replica {
        version: u32::MAX,
        ..replica_t()
    };
    for version in [0, 1, 5, 31, 32, u32::MAX - 1, u32::MAX] {
        for m in [
            add_player(400, version),
            destroy_player(100, version),
            add_player_to_group(300, 100, version),
            create_group(400, version),
            destroy_group(300, version),
            delete_player_from_group(300, 200, version),
        ] {
            let mut replica = start.clone();
            assert_eq!(replica.deliver(&m), Answer::Refused(14));
            assert_eq!(replica, start);
        }
    }
}

#[test]
fn a_65th_entry_is_a_noop_until_a_player_leaves() {
    let mut replica = full_replica();
    assert_eq!(replica.deliver(&add_player(65, 65)), applied(1, 1));
    assert_eq!(replica.entries, full_replica().entries);
    assert_eq!(replica.version, 65);
    assert_eq!(replica.deliver(&destroy_player(7, 66)), applied(1, 0));
    assert_eq!(replica.deliver(&add_player(65, 67)), applied(1, 0));
    assert_eq!(replica.entries.len(), 64);
    assert_eq!(replica.entries.last(), Some(&entry(1, 65, 67)));
}
