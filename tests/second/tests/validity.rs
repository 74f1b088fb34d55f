//! Validity of a replica, rule by rule (01 "The station").

mod common;
use common::*;
use second::name_table::{GROUP, PLAYER};
use second::operation::Operation;
use second::replica::Replica;

#[test]
fn validity_rule_by_rule() {
    let t = replica_t;
    assert!(t().is_valid() && Replica::fresh().is_valid() && full_replica().is_valid());
    assert!(Replica { version: 4, ..t() }.is_valid());
    assert!(Replica { host: 0, ..t() }.is_valid());
    let with_entries = |entries| Replica {
        entries,
        memberships: vec![],
        host: 0,
        ..t()
    };
    assert!(with_entries(vec![entry(1, 9, 0), entry(2, 8, 5)]).is_valid());
    for entries in [
        vec![entry(0, 9, 1)],
        vec![entry(3, 9, 1)],
        vec![entry(1, 0, 1)],
        vec![entry(1, 9, 6)],
        vec![entry(1, 9, 1), entry(2, 9, 2)],
        vec![entry(1, 9, 2), entry(2, 8, 2)],
        vec![entry(1, 9, 3), entry(2, 8, 2)],
    ] {
        assert!(!with_entries(entries).is_valid());
    }
    for memberships in [
        vec![(300, 200), (300, 200)],
        vec![(300, 200), (300, 100)],
        vec![(200, 300)],
        vec![(300, 300)],
        vec![(300, 400)],
        vec![(301, 100)],
    ] {
        assert!(!Replica { memberships, ..t() }.is_valid());
    }
    assert!(!Replica { host: 101, ..t() }.is_valid());
    assert!(!Replica { version: 3, ..t() }.is_valid());
}

#[test]
fn names_are_part_of_validity() {
    let entry_named = |name: &[u16]| {
        let mut replica = replica_t();
        replica.entries[2].name = name.to_vec();
        replica.is_valid()
    };
    let waiting_named = |name: &[u16]| {
        let valid = |kind| {
            let pending = vec![Operation::AddEntry(named_entry(kind, 9, 8, name))];
            let replica = Replica {
                pending,
                ..replica_t()
            };
            replica.is_valid()
        };
        assert_eq!(valid(PLAYER), valid(GROUP));
        valid(GROUP)
    };
    for (name, valid) in [
        (vec![], true),
        (vec![0x41], true),
        (vec![0xD800; 31], true), // halves of pairs are units like any other
        (vec![0x41; 32], false),
        (vec![0], false),
        (vec![0, 0x41], false),
        (vec![0x41, 0], false),
        ([vec![0x41; 30], vec![0]].concat(), false),
    ] {
        assert_eq!((entry_named(&name), waiting_named(&name)), (valid, valid));
    }
}

#[test]
fn limits_are_part_of_validity() {
    let mut replica = full_replica();
    replica.version = 65;
    replica.entries.push(entry(PLAYER, 65, 65));
    assert!(!replica.is_valid());
    assert!(full_of_memberships(128).is_valid());
    assert!(!full_of_memberships(129).is_valid());
}

#[test]
fn validity_of_pending_operations() {
    let destroy_of = |kind, version, id| Operation::DestroyEntry { version, kind, id };
    let destroy = |version, id| destroy_of(PLAYER, version, id);
    let add = |kind, id| Operation::AddEntry(entry(kind, id, 8));
    let join = |group, player| Operation::AddPlayerToGroup {
        version: 9,
        group,
        player,
    };
    let leave = |group, player| Operation::DeletePlayerFromGroup {
        version: 9,
        group,
        player,
    };
    let with = |pending| Replica {
        pending,
        ..replica_t()
    };
    assert!(with(vec![destroy(7, 1), destroy(37, 1)]).is_valid());
    for pending in [
        vec![add(PLAYER, 300)],
        vec![add(GROUP, 100)],
        vec![destroy(8, 300)],
        vec![destroy_of(GROUP, 8, 100)],
        vec![join(9, 9)],
        vec![leave(9, 9)],
    ] {
        assert!(with(pending).is_valid());
    }
    for pending in [
        vec![destroy(5, 1)],
        vec![destroy(6, 1)],
        vec![destroy(38, 1)],
        vec![destroy(7, 0)],
        vec![destroy_of(GROUP, 7, 0)],
        vec![destroy_of(0, 7, 1)],
        vec![destroy_of(3, 7, 1)],
        vec![add(PLAYER, 0)],
        vec![add(GROUP, 0)],
        vec![add(0, 1)],
        vec![add(3, 1)],
        vec![join(0, 1)],
        vec![join(1, 0)],
        vec![leave(0, 1)],
        vec![leave(1, 0)],
        vec![destroy(8, 1), destroy(7, 1)],
        vec![destroy(8, 1), destroy(8, 2)],
    ] {
        assert!(!with(pending).is_valid());
    }
    // Sums never wrap: nothing can wait near the last version.
    let last = Replica {
        version: u32::MAX - 1,
        ..with(vec![destroy(0, 1)])
    };
    assert!(!last.is_valid());
}
