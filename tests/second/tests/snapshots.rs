//! Snapshots: 21 to 28, round trip, and agreement with validity. What names
//! add is in names.rs.

mod common;
use common::*;
use second::name_table::{GROUP, PLAYER};
use second::random::{self, Rng};
use second::replica::Replica;
use second::snapshot::{read, write};
use second::write::Written;

#[test]
fn t_both_ways() {
    let bytes = snapshot_t();
    assert_eq!(bytes.len(), 89);
    assert_eq!(read(&bytes), Ok(replica_t()));
    assert_eq!(written_snapshot(&replica_t()), bytes);
    // Format 1 is read, and written as 2.
    assert_eq!(read(&nameless_t()), Ok(replica_t()));
}

/// T in format 1 with some bytes changed.
fn changed(changes: &[(usize, u8)]) -> u32 {
    let mut bytes = nameless_t();
    for &(position, value) in changes {
        bytes[position] = value;
    }
    read(&bytes).err().unwrap_or(0)
}

#[test]
fn lengths_are_21() {
    let bytes = nameless_t();
    for length in 0..bytes.len() {
        assert_eq!(read(&bytes[..length]), Err(21));
    }
    assert_eq!(read(&[bytes, vec![0]].concat()), Err(21));
    assert_eq!(read(&[0, 0, 0, 10, 1, 0, 0, 0, 0, 0, 0, 0, 0, 0]), Err(21));
    assert_eq!(read(&[0xFF; 3]), Err(21));
    assert_eq!(read(&[0xFF; 15]), Err(21)); // N + 4 must not wrap
    assert_eq!(changed(&[(3, 81), (4, 9)]), 21);
}

#[test]
fn format_and_counts() {
    assert_eq!(changed(&[(4, 0)]), 22);
    assert_eq!(changed(&[(4, 3), (13, 200)]), 22);
    assert_eq!(changed(&[(4, 255)]), 22);
    assert_eq!(changed(&[(13, 2)]), 23);
    assert_eq!(changed(&[(14, 0)]), 23);
    assert_eq!(changed(&[(13, 4), (15, 9)]), 23);
    let counted = |entries: usize, memberships: usize| {
        let mut bytes = vec![0; 15 + 21 * entries + 8 * memberships];
        let n = (bytes.len() - 4) as u32;
        bytes[..4].copy_from_slice(&n.to_be_bytes());
        (bytes[4], bytes[13], bytes[14]) = (1, entries as u8, memberships as u8);
        read(&bytes)
    };
    assert_eq!(counted(65, 0), Err(23));
    assert_eq!(counted(0, 129), Err(23));
    assert_eq!(counted(64, 128), Err(24)); // kinds are 0
    assert_eq!(counted(0, 128), Err(26));
}

#[test]
fn entries_host_and_memberships() {
    assert_eq!(changed(&[(15, 0)]), 24);
    assert_eq!(changed(&[(15, 3)]), 24);
    assert_eq!(changed(&[(19, 0)]), 24); // id 0
    assert_eq!(changed(&[(40, 100)]), 24); // id repeated
    assert_eq!(changed(&[(31, 3)]), 24); // versions 3, 3
    assert_eq!(changed(&[(31, 4)]), 24); // versions 4, 3
    assert_eq!(changed(&[(73, 6)]), 24); // above the snapshot's version 5
    assert_eq!(changed(&[(73, 5)]), 0);
    assert_eq!(changed(&[(31, 0)]), 0); // an entry version of 0 is allowed
    assert_eq!(changed(&[(12, 101)]), 25);
    assert_eq!(changed(&[(11, 1), (12, 44)]), 25); // host 300 is a group
    assert_eq!(changed(&[(12, 0)]), 0);
    assert_eq!(changed(&[(85, 201)]), 26);
    assert_eq!(changed(&[(81, 45)]), 26);
    assert_eq!(changed(&[(12, 101), (85, 201)]), 25); // 25 before 26
    assert_eq!(changed(&[(15, 0), (12, 101)]), 24); // 24 before 25
}

#[test]
fn membership_order() {
    let replica = |memberships| {
        let entries = vec![
            entry(GROUP, 7, 1),
            entry(GROUP, 8, 2),
            entry(PLAYER, 5, 3),
            entry(PLAYER, 6, 4),
        ];
        Replica {
            version: 9,
            host: 0,
            entries,
            memberships,
            pending: vec![],
        }
    };
    let number = |pairs| {
        read(&random::name_table_bytes(&replica(pairs)))
            .err()
            .unwrap_or(0)
    };
    assert_eq!(number(vec![(7, 5), (7, 6), (8, 5)]), 0);
    assert_eq!(number(vec![(7, 6), (8, 5), (8, 6)]), 0);
    assert_eq!(number(vec![(7, 6), (7, 5)]), 26);
    assert_eq!(number(vec![(8, 5), (7, 6)]), 26);
    assert_eq!(number(vec![(7, 5), (7, 5)]), 26);
    assert_eq!(number(vec![(5, 7)]), 26);
}

#[test]
fn short_buffers_are_27_and_bytes_beyond_stay() {
    let mut short = [0x5A; 88];
    assert_eq!(
        write(&replica_t(), &mut short),
        Written {
            number: 27,
            written: 0
        }
    );
    assert_eq!(short, [0x5A; 88]);
    let mut long = [0x5A; 93];
    assert_eq!(
        write(&replica_t(), &mut long),
        Written {
            number: 0,
            written: 89
        }
    );
    assert_eq!(long[..89], snapshot_t()[..]);
    assert_eq!(long[89..], [0x5A; 4]);
    let broken = Replica {
        host: 1,
        ..replica_t()
    };
    assert_eq!(
        write(&broken, &mut long),
        Written {
            number: 28,
            written: 0
        }
    );
    assert_eq!(long[..89], snapshot_t()[..]);
}

#[test]
fn pending_operations_are_not_saved() {
    let mut replica = replica_t();
    replica.deliver(&destroy_player(100, 7));
    assert_eq!(replica.pending.len(), 1);
    assert_eq!(written_snapshot(&replica), snapshot_t());
}

#[test]
fn longest_snapshot() {
    let kind = |id| if id <= 8 { GROUP } else { PLAYER };
    let each = (1..=64).map(|id| named_entry(kind(id), id, id, &[0x41; 31]));
    let entries = each.collect();
    let memberships = (1..=8).flat_map(|g| (9..25).map(move |p| (g, p))).collect();
    let replica = Replica {
        version: 64,
        host: 9,
        entries,
        memberships,
        pending: vec![],
    };
    let bytes = written_snapshot(&replica);
    assert_eq!(bytes.len(), 6_415);
    assert_eq!(random::nameless_bytes(&replica).len(), 2_383);
    assert_eq!(read(&bytes), Ok(replica));
}

#[test]
fn round_trip_of_random_replicas() {
    let mut rng = Rng::new(31);
    for _ in 0..20_000 {
        let replica = random::replica(&mut rng);
        assert!(replica.is_valid());
        let bytes = written_snapshot(&replica);
        assert_eq!(bytes, random::name_table_bytes(&replica));
        assert_eq!(
            read(&bytes),
            Ok(Replica {
                pending: vec![],
                ..replica
            })
        );
    }
}

#[test]
fn read_accepts_exactly_the_valid_name_tables() {
    let mut rng = Rng::new(32);
    let mut refused = 0;
    for _ in 0..40_000 {
        let replica = Replica {
            pending: vec![],
            ..random::any_replica(&mut rng)
        };
        let answer = read(&random::name_table_bytes(&replica));
        refused += u32::from(answer.is_err());
        assert_eq!(answer.is_ok(), replica.is_valid());
    }
    assert!(refused > 1000);
}

#[test]
fn an_accepted_snapshot_of_format_2_is_written_back_byte_for_byte() {
    let mut rng = Rng::new(33);
    let mut seen = [0; 27];
    for _ in 0..60_000 {
        let bytes = random::any_snapshot(&mut rng);
        match read(&bytes) {
            Ok(replica) if bytes[4] == 1 => assert_eq!(random::nameless_bytes(&replica), bytes),
            Ok(replica) => assert_eq!(written_snapshot(&replica), bytes),
            Err(number) => seen[number as usize] += 1,
        }
    }
    assert!((21..=26).all(|number| seen[number] > 0), "{seen:?}");
}
