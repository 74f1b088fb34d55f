//! Groups that come and go (02 A5): what the three operations do to a replica.

mod common;
use common::*;
use second::name_table::{GROUP, PLAYER};
use second::replay::replay;
use second::replica::{Answer, Replica};

/// Delivers each in turn, and the replay agrees; the replica after them.
fn after(start: &Replica, list: &[(Vec<u8>, Answer)]) -> Replica {
    let mut replica = start.clone();
    for (m, answer) in list {
        assert_eq!(replica.deliver(m), *answer, "{m:?}");
        assert!(replica.is_valid());
    }
    let messages: Vec<&[u8]> = list.iter().map(|(m, _)| &m[..]).collect();
    let outcome = replay(&start.name_table(), &messages);
    let answers: Vec<Answer> = list.iter().map(|(_, answer)| *answer).collect();
    assert_eq!(outcome.answers, answers);
    assert_eq!(outcome.name_table, replica.name_table());
    assert_eq!(outcome.above_reach, replica.pending);
    replica
}

/// A no-op on this replica: the version passes and nothing else changes.
fn noop(start: &Replica, m: Vec<u8>) {
    let end = after(start, &[(m, applied(1, 1))]);
    let version = start.version + 1;
    assert_eq!(
        end,
        Replica {
            version,
            ..start.clone()
        }
    );
}

#[test]
fn a_group_comes_and_goes() {
    let did = applied(1, 0);
    let with_group = after(&replica_t(), &[(create_group(7, 6), did)]);
    assert_eq!(with_group.entries.last(), Some(&entry(GROUP, 7, 6)));
    let joined = after(
        &with_group,
        &[
            (add_player_to_group(7, 200, 7), did),
            (add_player_to_group(7, 100, 8), did),
        ],
    );
    assert_eq!(joined.memberships, [(7, 100), (7, 200), (300, 200)]);
    let left = after(&joined, &[(delete_player_from_group(7, 200, 9), did)]);
    assert_eq!(left.memberships, [(7, 100), (300, 200)]);
    let end = after(&left, &[(destroy_group(7, 10), did)]);
    let expected = Replica {
        version: 10,
        ..replica_t()
    };
    assert_eq!(end, expected);
}

#[test]
fn what_is_kept_of_a_created_group() {
    let mut m = le(&[0xD7, 1, 2, 7, 3, 4, 6, 5, 8, 56, 4, 0, 0, 0, 0]);
    m.extend([0x41, 0x12, 0, 0]);
    let end = after(&replica_t(), &[(m, applied(1, 0))]);
    let mut expected = named_entry(GROUP, 7, 6, &[0x1241]);
    (expected.owner, expected.flags, expected.dnet_version) = (3, 4, 8);
    assert_eq!(end.entries.last(), Some(&expected));
}

#[test]
fn names_of_groups_are_cut_at_31_units() {
    for length in [0, 1, 30, 31, 32, 33, 300] {
        let name: Vec<u16> = (1..=length).collect();
        let list = [(create_named(7, 6, &name), applied(1, 0))];
        let kept = after(&replica_t(), &list).entries.pop().unwrap().name;
        assert_eq!(kept, name[..name.len().min(31)]);
    }
}

/// Kind comes from the type: the flags say nothing, and the owner may be 0.
#[test]
fn flags_do_not_tell_the_kind() {
    let mut player = add_player(8, 7);
    player[12] = 0x10; // the flag that marks a group elsewhere
    let did = applied(1, 0);
    let list = [(create_group(7, 6), did), (player, did)];
    let end = after(&replica_t(), &list);
    let kinds: Vec<u32> = end.entries[3..].iter().map(|e| e.kind).collect();
    assert_eq!(kinds, [GROUP, PLAYER]);
}

#[test]
fn creating_is_a_noop_where_adding_a_player_is() {
    noop(&replica_t(), create_group(100, 6));
    noop(&replica_t(), create_named(300, 6, &units("Other")));
    noop(&full_replica(), create_group(65, 65));
    let did = applied(1, 0);
    let list = [
        (destroy_player(7, 65), did),
        (create_group(65, 66), did),
        (create_group(66, 67), applied(1, 1)),
        (destroy_group(65, 68), did),
        (add_player(66, 69), did),
    ];
    assert_eq!(after(&full_replica(), &list).entries.len(), 64);
}

#[test]
fn destroying_is_a_noop_for_a_player_or_nobody() {
    for id in [100, 200, 999] {
        noop(&replica_t(), destroy_group(id, 6));
    }
    noop(&replica_t(), destroy_player(300, 6));
}

/// Only its own pairs go, wherever they stand, and no host.
#[test]
fn destroying_takes_the_memberships_of_the_group_along() {
    let start = full_of_memberships(128);
    for group in 1..=4 {
        let end = after(&start, &[(destroy_group(group, 45), applied(1, 0))]);
        let mut kept = start.memberships.clone();
        kept.retain(|pair| pair.0 != group);
        assert_eq!(end.memberships, kept);
        assert!(end.memberships.len() < 128);
        assert_eq!(end.entries.len(), 43);
    }
    let end = after(&replica_t(), &[(destroy_group(300, 6), applied(1, 0))]);
    assert_eq!((end.host, end.memberships.len()), (100, 0));
    assert_eq!(end.next_host(), Ok(200));
}

#[test]
fn a_129th_membership_fits_once_pairs_are_gone() {
    let full = full_of_memberships(128);
    let (did, did_not) = (applied(1, 0), applied(1, 1));
    let deleted = [
        (add_player_to_group(4, 44, 45), did_not),
        (delete_player_from_group(1, 5, 46), did),
        (add_player_to_group(4, 44, 47), did),
        (add_player_to_group(1, 5, 48), did_not),
    ];
    assert_eq!(after(&full, &deleted).memberships.len(), 128);
    let destroyed = [
        (destroy_group(1, 45), did),
        (add_player_to_group(4, 44, 46), did),
        (add_player_to_group(1, 5, 47), did_not),
    ];
    assert_eq!(after(&full, &destroyed).memberships.len(), 128 - 40 + 1);
}

#[test]
fn deleting_an_absent_pair_is_a_noop() {
    for (group, player) in [(300, 100), (200, 300), (300, 300), (300, 999), (999, 200)] {
        noop(&replica_t(), delete_player_from_group(group, player, 6));
    }
    let without = Replica {
        memberships: vec![],
        ..replica_t()
    };
    noop(&without, delete_player_from_group(300, 200, 6));
}

/// An id that is free again may be the other kind's.
#[test]
fn ids_are_used_again() {
    let did = applied(1, 0);
    let list = [
        (destroy_group(300, 6), did),
        (add_player(300, 7), did),
        (destroy_player(200, 8), did),
        (create_group(200, 9), did),
        (add_player_to_group(200, 300, 10), did),
    ];
    let end = after(&replica_t(), &list);
    assert_eq!(end.memberships, [(200, 300)]);
    let entries = [
        entry(PLAYER, 100, 1),
        entry(PLAYER, 300, 7),
        entry(GROUP, 200, 9),
    ];
    assert_eq!(end.entries, entries);
}

/// 16 for what is kept, whatever else is said; 17 for each value that is kept.
#[test]
fn kept_values_of_each() {
    let create = [0xD7, 1, 2, 7, 3, 4, 8, 5, 6, 0, 0, 0, 0, 0, 0];
    let destroy = [0xD8, 7, 8, 1, 2, 3];
    let delete = [0xDA, 7, 9, 8, 1, 2, 3];
    let all: [(&[u32], &[usize], &[usize]); 3] = [
        (&create, &[3, 4, 5, 8], &[1, 2, 7]),
        (&destroy, &[1], &[3, 4, 5]),
        (&delete, &[1, 2], &[4, 5, 6]),
    ];
    for (words, kept, not_kept) in all {
        let mut replica = replica_t();
        assert_eq!(replica.deliver(&le(words)), Answer::Waits);
        let mut again = |at: usize| {
            let mut other = words.to_vec();
            other[at] ^= 0x100;
            replica.deliver(&le(&other))
        };
        for at in kept {
            assert_eq!(again(*at), Answer::Refused(17), "{words:x?} {at}");
        }
        for at in not_kept {
            assert_eq!(again(*at), Answer::Refused(16), "{words:x?} {at}");
        }
    }
}

/// The name of a group that waits is a kept value; data and URL are not.
#[test]
fn a_name_waits_with_its_group() {
    let long: Vec<u16> = (1..=40).collect();
    let mut replica = replica_t();
    assert_eq!(replica.deliver(&create_named(7, 7, &long)), Answer::Waits);
    let again = |name: &[u16]| replica.clone().deliver(&create_named(7, 7, name));
    assert_eq!(again(&long[..31]), Answer::Refused(16));
    assert_eq!(again(&long[..30]), Answer::Refused(17));
    assert_eq!(again(&[]), Answer::Refused(17));
    let mut with_data = create_named(7, 7, &long);
    put_pair(&mut with_data, 44, (56, 1));
    put_pair(&mut with_data, 52, (57, 1));
    assert_eq!(replica.clone().deliver(&with_data), Answer::Refused(16));
    assert_eq!(replica.deliver(&create_group(8, 6)), applied(2, 0));
    let names: Vec<&[u16]> = replica.entries.iter().map(|e| &e.name[..]).collect();
    assert_eq!(names, [&[], &[], &[], &[][..], &long[..31]]);
}

/// Operations of two types differ, though they keep the same numbers.
#[test]
fn types_are_kept() {
    let pairs = [
        (add_player(7, 8), create_group(7, 8)),
        (destroy_player(7, 8), destroy_group(7, 8)),
        (
            add_player_to_group(7, 9, 8),
            delete_player_from_group(7, 9, 8),
        ),
    ];
    for (one, other) in pairs {
        for (first, second) in [(&one, &other), (&other, &one)] {
            let mut replica = replica_t();
            assert_eq!(replica.deliver(first), Answer::Waits);
            assert_eq!(replica.deliver(first), Answer::Refused(16));
            assert_eq!(replica.deliver(second), Answer::Refused(17));
        }
    }
}

/// A group that came early is there for those who come after it.
#[test]
fn operations_on_a_group_wait_for_it() {
    let mut replica = replica_t();
    for m in [
        destroy_group(7, 10),
        delete_player_from_group(7, 100, 9),
        add_player_to_group(7, 100, 8),
        add_player_to_group(7, 200, 7),
    ] {
        assert_eq!(replica.deliver(&m), Answer::Waits);
    }
    assert_eq!(replica.deliver(&create_group(7, 6)), applied(5, 0));
    let expected = Replica {
        version: 10,
        ..replica_t()
    };
    assert_eq!(replica, expected);
}

/// A group is never host, nor next.
#[test]
fn groups_do_not_host() {
    let did = applied(1, 0);
    let list = [
        (create_group(7, 1), did),
        (destroy_group(8, 2), applied(1, 1)),
    ];
    let end = after(&Replica::fresh(), &list);
    assert_eq!((end.host, end.next_host()), (0, Ok(0)));
}

#[test]
fn other_group_messages_are_3() {
    for kind in [0xD2, 0xD4, 0xD5, 0xD6, 0xDB] {
        let mut m = le(&[kind]);
        m.resize(60, 1);
        assert_eq!(replica_t().deliver(&m), Answer::Refused(3));
    }
}
