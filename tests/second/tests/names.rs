//! Names (02 A3): what is kept of them, and the snapshots that hold them.

mod common;
use common::*;
use second::name_table::PLAYER;
use second::operation::Operation;
use second::random::{self, Rng};
use second::replay::replay;
use second::replica::{Answer, Replica};
use second::snapshot::read;

/// The name of the last entry after the next operation.
fn added(m: &[u8]) -> Vec<u16> {
    let mut replica = replica_t();
    assert_eq!(replica.deliver(m), applied(1, 0));
    replica.entries.pop().unwrap().name
}

fn numbered(length: u16) -> Vec<u16> {
    (1..=length).collect()
}

// ---- what is kept ----

#[test]
fn without_the_terminator_and_the_first_31_at_most() {
    for length in [1, 2, 30, 31, 32, 33, 300] {
        let kept = added(&add_named(400, 6, &numbered(length)));
        assert_eq!(kept, numbered(length.min(31)), "{length}");
    }
    // The 31st unit is the first half of a pair: it is kept alone.
    let mut halved = numbered(30);
    halved.extend(units("\u{1F600}"));
    let kept = added(&add_named(400, 6, &halved));
    assert_eq!((kept.len(), kept[30]), (31, 0xD83D));
}

#[test]
fn an_absent_name_is_empty_and_the_same_as_an_empty_one() {
    assert_eq!(added(&add_player(400, 6)), []);
    assert_eq!(added(&add_named(400, 6, &[])), []);
    let mut replica = replica_t();
    assert_eq!(replica.deliver(&add_player(400, 7)), Answer::Waits);
    let empty = add_named(400, 7, &[]);
    assert_eq!(replica.deliver(&empty), Answer::Refused(16));
}

#[test]
fn units_of_the_message_are_little_endian() {
    let mut m = add_named(400, 6, &[0x41]);
    assert_eq!(m[52..], [0x41, 0, 0, 0]);
    m[53] = 0x12;
    assert_eq!(added(&m), [0x1241]);
}

/// 16 by equal kept names, 17 by any other.
#[test]
fn the_name_is_a_kept_value() {
    let long = numbered(40);
    let mut replica = replica_t();
    assert_eq!(replica.deliver(&add_named(400, 8, &long)), Answer::Waits);
    let again = |name: &[u16]| replica.clone().deliver(&add_named(400, 8, name));
    assert_eq!(again(&long), Answer::Refused(16));
    assert_eq!(again(&long[..31]), Answer::Refused(16));
    assert_eq!(again(&long[..32]), Answer::Refused(16));
    assert_eq!(again(&long[..30]), Answer::Refused(17));
    assert_eq!(again(&[]), Answer::Refused(17));
    for at in [0, 1, 15, 30, 31, 39] {
        let mut other = long.clone();
        other[at] ^= 0x8000;
        let number = if at < 31 { 17 } else { 16 };
        assert_eq!(again(&other), Answer::Refused(number), "{at}");
    }
}

#[test]
fn data_and_url_are_not_kept() {
    let m = |tail: &[u8]| {
        let mut m = le(&[0xD0, 400, 0, 0, 8, 0, 7, 0, 0, 48, 1, 49, 2]);
        m.extend(tail);
        m
    };
    let mut replica = replica_t();
    assert_eq!(replica.deliver(&m(&[1, 2, 0])), Answer::Waits);
    assert_eq!(replica.deliver(&m(&[3, 4, 0])), Answer::Refused(16));
}

/// The name of an operation that waits is the entry's once it is applied.
#[test]
fn a_name_waits_with_its_operation() {
    let mut replica = replica_t();
    let messages = [
        add_named(402, 8, &units("Cy")),
        add_named(401, 7, &units("Bo")),
        add_named(400, 6, &units("Ann")),
    ];
    for m in &messages[..2] {
        assert_eq!(replica.deliver(m), Answer::Waits);
    }
    let waiting: Vec<&[u16]> = replica.pending.iter().map(Operation::name).collect();
    assert_eq!(waiting, [units("Bo"), units("Cy")]);
    assert_eq!(replica.deliver(&messages[2]), applied(3, 0));
    let names: Vec<Vec<u16>> = replica.entries.iter().map(|e| e.name.clone()).collect();
    assert_eq!(names[3..], [units("Ann"), units("Bo"), units("Cy")]);
    let outcome = replay(&replica_t().name_table(), &messages);
    assert_eq!(outcome.name_table, replica.name_table());
}

#[test]
fn a_noop_changes_no_name() {
    let mut replica = replica_t();
    replica.entries[0].name = units("Ann");
    let before = replica.entries.clone();
    for (id, version) in [(100, 6), (200, 7), (300, 8)] {
        let m = add_named(id, version, &units("Other"));
        assert_eq!(replica.deliver(&m), applied(1, 1));
    }
    assert_eq!(replica.entries, before);
}

#[test]
fn entries_behind_one_that_leaves_keep_their_names() {
    let mut replica = replica_t();
    for (entry, name) in replica.entries.iter_mut().zip(["A", "Bob", "Crew"]) {
        entry.name = units(name);
    }
    assert_eq!(replica.deliver(&destroy_player(100, 6)), applied(1, 0));
    let names: Vec<Vec<u16>> = replica.entries.iter().map(|e| e.name.clone()).collect();
    assert_eq!(names, [units("Bob"), units("Crew")]);
}

// ---- the snapshot ----

/// Player 100 named "Ann" and a half, the others without a name.
fn named_t() -> (Replica, Vec<u8>) {
    let mut replica = replica_t();
    replica.entries[0].name = vec![0x41, 0x6E, 0x6E, 0xD83D];
    let mut bytes = snapshot_t();
    bytes[3] += 8;
    bytes[36] = 8;
    bytes.splice(37..37, [0, 0x41, 0, 0x6E, 0, 0x6E, 0xD8, 0x3D]);
    (replica, bytes)
}

#[test]
fn a_name_is_saved_behind_its_entry_high_byte_first() {
    let (replica, bytes) = named_t();
    assert_eq!(written_snapshot(&replica), bytes);
    assert_eq!(bytes.len(), 89 + 8);
    assert_eq!(read(&bytes), Ok(replica));
}

#[test]
fn same_snapshot_means_names_equal_too() {
    let (replica, bytes) = named_t();
    let mut other = replica;
    other.entries[0].name[0] = 0x141;
    assert_ne!(written_snapshot(&other), bytes);
    other.entries[0].name = vec![];
    assert_eq!(written_snapshot(&other), snapshot_t());
}

#[test]
fn format_1_is_read_with_empty_names_and_written_as_2() {
    let replica = read(&nameless_t()).unwrap();
    assert!(replica.entries.iter().all(|e| e.name.is_empty()));
    assert_eq!(written_snapshot(&replica), snapshot_t());
}

/// The same bytes under the other format end elsewhere.
#[test]
fn one_format_taken_for_the_other_is_23() {
    let (mut one, mut two) = (nameless_t(), snapshot_t());
    (one[4], two[4]) = (2, 1);
    assert_eq!((read(&one), read(&two)), (Err(23), Err(23)));
    for format in [0, 3, 4, 128, 255] {
        one[4] = format;
        assert_eq!(read(&one), Err(22));
    }
}

/// T with other bytes in place of the empty name of an entry (0 to 2); N fits.
fn with_name(entry: usize, length: u8, name: &[u8]) -> Vec<u8> {
    let mut bytes = snapshot_t();
    let at = 36 + 22 * entry;
    bytes[at] = length;
    bytes.splice(at + 1..at + 1, name.iter().copied());
    let n = bytes.len() - 4;
    bytes[3] = n as u8;
    bytes[2] = (n >> 8) as u8;
    bytes
}

#[test]
fn lengths_and_units_that_are_24() {
    for entry in 0..3 {
        let number = |name: &[u8]| {
            let bytes = with_name(entry, name.len() as u8, name);
            read(&bytes).err().unwrap_or(0)
        };
        for length in 0..=255 {
            let expected = if length % 2 == 1 || length > 62 {
                24
            } else {
                0
            };
            assert_eq!(number(&vec![0x41; length]), expected, "{length}");
        }
        assert_eq!(number(&[0, 0]), 24);
        assert_eq!(number(&[0, 0, 0, 0x41]), 24);
        assert_eq!(number(&[0, 0x41, 0, 0]), 24);
        assert_eq!(number(&[0x41, 0, 0, 0x41]), 0); // two zero bytes and no zero unit
        assert_eq!(number(&[[0x41; 60].to_vec(), vec![0, 0]].concat()), 24);
    }
}

/// The end of the entries is where the length bytes lead, whatever they are.
#[test]
fn entries_that_do_not_end_where_n_and_the_counts_say_are_23() {
    let name = [0, 0x41, 0, 0x42];
    for entry in 0..3 {
        for length in 0..=255 {
            let answer = read(&with_name(entry, length, &name));
            if length == 4 {
                assert!(answer.is_ok());
            } else if entry == 2 || length > 4 {
                assert_eq!(answer, Err(23), "{entry} {length}");
            }
        }
    }
    // The last entry's length byte is beyond the end.
    let mut bytes = snapshot_t();
    bytes.truncate(15 + 22 + 22 + 21);
    (bytes[3], bytes[14]) = (76, 0);
    assert_eq!(read(&bytes), Err(23));
    bytes.push(0);
    bytes[3] = 77;
    assert!(read(&bytes).is_ok());
    // So long a name that the entries behind it lie outside.
    assert_eq!(read(&with_name(0, 255, &[0x41; 60])), Err(23));
}

#[test]
fn what_23_says_comes_before_what_24_says() {
    // An odd length, and one over 62, that end a byte beside the memberships.
    assert_eq!(read(&with_name(2, 3, &[0x41; 4])), Err(23));
    assert_eq!(read(&with_name(2, 64, &[0x41; 62])), Err(23));
    // A zero unit in the first entry, and the last ends elsewhere.
    let mut bytes = with_name(0, 2, &[0, 0]);
    bytes.push(0);
    bytes[3] += 1;
    assert_eq!(read(&bytes), Err(23));
    // Counts over the limits come before all of these.
    let mut bytes = with_name(0, 2, &[0, 0]);
    bytes[13] = 65;
    assert_eq!(read(&bytes), Err(23));
}

#[test]
fn names_come_before_host_and_memberships() {
    let mut bytes = with_name(1, 2, &[0, 0]);
    bytes[12] = 99;
    let last = bytes.len() - 1;
    bytes[last] = 99;
    assert_eq!(read(&bytes), Err(24));
    bytes[60] = 0x41;
    assert_eq!(read(&bytes), Err(25));
}

#[test]
fn pending_names_are_not_saved() {
    let mut replica = replica_t();
    replica.deliver(&add_named(400, 7, &units("Ann")));
    assert_eq!(written_snapshot(&replica), snapshot_t());
}

/// Every byte of it is counted: 1 for each entry, 2 for each unit.
#[test]
fn n_of_random_replicas() {
    let mut rng = Rng::new(71);
    let mut most = 0;
    for _ in 0..2_000 {
        let replica = random::replica(&mut rng);
        let (e, m) = (replica.entries.len(), replica.memberships.len());
        let names: usize = replica.entries.iter().map(|e| 1 + 2 * e.name.len()).sum();
        let n = 11 + 21 * e + names + 8 * m;
        assert_eq!(written_snapshot(&replica)[..4], (n as u32).to_be_bytes());
        most = most.max(n);
    }
    assert!(most > 4_000 && most <= 6_411, "{most}");
}

#[test]
fn operations_of_other_types_keep_none() {
    let mut replica = replica_t();
    for m in [destroy_player(100, 7), add_player_to_group(300, 100, 8)] {
        assert_eq!(replica.deliver(&m), Answer::Waits);
    }
    assert!(replica.pending.iter().all(|p| p.name().is_empty()));
    assert_eq!(replica.entries[0], entry(PLAYER, 100, 1));
}
