//! The replica: each operation, and 01 "Easy to get wrong".

mod common;
use common::*;
use second::name_table::{GROUP, PLAYER};
use second::replica::{Answer, Replica};
use second::{random, snapshot};

#[test]
fn messages_that_are_no_operation_are_13() {
    let mut connect_info = le(&[0xC1, 2, 6]);
    connect_info.resize(84, 0);
    let mut replica = replica_t();
    assert_eq!(replica.deliver(&connect_info), Answer::Refused(13));
    assert_eq!(
        replica.deliver(&le(&[0xD3, 6, 300, 100])),
        Answer::Refused(13)
    );
    assert_eq!(replica.deliver(&le(&[0xD3, 6, 300, 0])), Answer::Refused(7));
    assert_eq!(replica.deliver(&[]), Answer::Refused(2));
    assert_eq!(replica, replica_t());
}

#[test]
fn an_invalid_replica_is_28_before_all() {
    let broken = Replica {
        host: 300,
        ..replica_t()
    }; // a group is no host
    let mut replica = broken.clone();
    assert!(!replica.is_valid());
    assert_eq!(replica.deliver(&[]), Answer::Refused(28));
    assert_eq!(replica.deliver(&add_player(400, 6)), Answer::Refused(28));
    assert_eq!(replica, broken);
    assert_eq!(replica.next_host(), Err(28));
    assert_eq!(snapshot::write(&replica, &mut []).number, 28);
}

#[test]
fn add_player_noops() {
    for id in [100, 300] {
        let mut replica = replica_t();
        assert_eq!(replica.deliver(&add_player(id, 6)), applied(1, 1));
        assert_eq!(
            replica,
            Replica {
                version: 6,
                ..replica_t()
            }
        );
    }
}

#[test]
fn destroy_player_noops() {
    for id in [300, 999] {
        let mut replica = replica_t();
        assert_eq!(replica.deliver(&destroy_player(id, 6)), applied(1, 1));
        assert_eq!(
            replica,
            Replica {
                version: 6,
                ..replica_t()
            }
        );
    }
}

#[test]
fn destroy_player_takes_memberships_and_host_along() {
    let mut replica = replica_t();
    assert_eq!(
        replica.deliver(&add_player_to_group(300, 100, 6)),
        applied(1, 0)
    );
    assert_eq!(replica.memberships, [(300, 100), (300, 200)]);
    assert_eq!(replica.deliver(&destroy_player(200, 7)), applied(1, 0));
    assert_eq!(
        (replica.host, &replica.memberships[..]),
        (100, &[(300, 100)][..])
    );
    assert_eq!(replica.deliver(&destroy_player(100, 8)), applied(1, 0));
    assert_eq!((replica.host, replica.memberships.len()), (0, 0));
    assert_eq!(replica.entries, [entry(GROUP, 300, 4)]);
}

#[test]
fn add_player_to_group_noops() {
    for (group, player) in [(300, 200), (300, 300), (100, 200), (300, 999), (999, 100)] {
        let mut replica = replica_t();
        assert_eq!(
            replica.deliver(&add_player_to_group(group, player, 6)),
            applied(1, 1)
        );
        assert_eq!(
            replica,
            Replica {
                version: 6,
                ..replica_t()
            }
        );
    }
}

#[test]
fn a_129th_membership_is_a_noop_until_one_goes() {
    let mut replica = full_of_memberships(127);
    assert_eq!(
        replica.deliver(&add_player_to_group(4, 44, 45)),
        applied(1, 0)
    );
    assert_eq!(replica.memberships.len(), 128);
    assert_eq!(
        replica.deliver(&add_player_to_group(4, 43, 46)),
        applied(1, 1)
    );
    assert_eq!(replica.deliver(&destroy_player(44, 47)), applied(1, 0));
    assert_eq!(
        replica.deliver(&add_player_to_group(4, 43, 48)),
        applied(1, 0)
    );
    assert!(replica.is_valid());
}

#[test]
fn next_host_by_entry_version_not_by_id_or_place() {
    let entries = vec![
        entry(GROUP, 1, 1),
        entry(PLAYER, 90, 2),
        entry(PLAYER, 5, 3),
    ];
    let replica = |host| Replica {
        version: 9,
        host,
        entries: entries.clone(),
        ..Replica::fresh()
    };
    assert_eq!(replica(0).next_host(), Ok(90));
    assert_eq!(replica(90).next_host(), Ok(5));
    assert_eq!(replica(5).next_host(), Ok(90));
    assert_eq!(Replica::fresh().next_host(), Ok(0));
    let alone = Replica {
        host: 5,
        entries: vec![entry(PLAYER, 5, 1)],
        version: 1,
        ..Replica::fresh()
    };
    assert_eq!(alone.next_host(), Ok(0));
}

#[test]
fn all_waiting_operations_drain_and_noops_count() {
    let mut replica = Replica::fresh();
    for version in (2..=32).rev() {
        let m = if version % 2 == 0 {
            add_player(version, version)
        } else {
            add_player(2, version)
        };
        assert_eq!(replica.deliver(&m), Answer::Waits);
    }
    assert_eq!(replica.pending.len(), 31);
    assert_eq!(replica.deliver(&destroy_player(5, 1)), applied(32, 16));
    assert_eq!((replica.version, replica.entries.len()), (32, 16));
    assert!(replica.pending.is_empty());
}

#[test]
fn draining_stops_at_a_gap() {
    let mut replica = replica_t();
    for version in [7, 8, 10] {
        assert_eq!(
            replica.deliver(&add_player(version, version)),
            Answer::Waits
        );
    }
    assert_eq!(replica.deliver(&add_player(6, 6)), applied(3, 0));
    assert_eq!((replica.version, replica.pending.len()), (8, 1));
    assert_eq!(replica.deliver(&add_player(9, 9)), applied(2, 0));
}

#[test]
fn words_that_are_not_kept_change_nothing() {
    let mut replica = replica_t();
    assert_eq!(
        replica.deliver(&le(&[0xD9, 300, 100, 8, 0, 0, 0])),
        Answer::Waits
    );
    assert_eq!(
        replica.deliver(&le(&[0xD9, 300, 100, 8, 1, 2, 3])),
        Answer::Refused(16)
    );
    assert_eq!(replica.deliver(&le(&[0xD1, 100, 7, 0, 1])), Answer::Waits);
    assert_eq!(
        replica.deliver(&le(&[0xD1, 100, 7, 9, 4])),
        Answer::Refused(16)
    );
    assert_eq!(replica.deliver(&add_player(400, 9)), Answer::Waits);
    let mut named = le(&[0xD0, 400, 0, 0, 9, 5, 7, 48, 2, 0, 0, 0, 0]);
    named.extend([0, 0]);
    assert_eq!(replica.deliver(&named), Answer::Refused(16));
    for word in [2, 3, 6] {
        let mut other = add_player(400, 9); // owner, flags, DNET version are kept
        other[4 * word] ^= 1;
        assert_eq!(replica.deliver(&other), Answer::Refused(17));
    }
    assert_eq!(
        replica.deliver(&destroy_player(400, 9)),
        Answer::Refused(17)
    );
}

#[test]
fn up_to_the_last_version() {
    let mut replica = Replica {
        version: u32::MAX - 2,
        ..Replica::fresh()
    };
    assert_eq!(replica.deliver(&add_player(1, u32::MAX)), Answer::Waits);
    assert_eq!(replica.deliver(&add_player(2, u32::MAX - 1)), applied(2, 0));
    assert_eq!(replica.version, u32::MAX);
    assert_eq!(replica.deliver(&add_player(3, 0)), Answer::Refused(14));
}

#[test]
fn a_refused_delivery_changes_nothing_and_others_keep_validity() {
    let mut rng = random::Rng::new(21);
    for _ in 0..30_000 {
        let mut replica = random::any_replica(&mut rng);
        let before = replica.clone();
        let m = random::message(&mut rng, before.version);
        match replica.deliver(&m) {
            Answer::Refused(_) => assert_eq!(replica, before),
            Answer::Waits => assert_eq!(replica.name_table(), before.name_table()),
            Answer::Applied { passed, noops } => {
                assert_eq!(replica.version - before.version, passed);
                assert!(noops <= passed && (1..=32).contains(&passed));
            }
        }
        assert_eq!(replica.is_valid(), before.is_valid());
    }
}
