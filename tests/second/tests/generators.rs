//! The random generators: repeatable, and reaching every answer.

mod common;
use common::*;
use second::operation::Operation;
use second::random::{self, Rng};
use second::read::{read, FieldName, Message, Part};
use second::replica::{Answer, Replica};
use std::collections::{BTreeMap, BTreeSet};

#[test]
fn the_same_seed_gives_the_same_run() {
    let run = |seed| {
        let mut rng = Rng::new(seed);
        let messages: Vec<Vec<u8>> = (0..50).map(|_| random::message(&mut rng, 9)).collect();
        (
            messages,
            random::framed_input(&mut rng),
            random::damaged_replica(&mut rng),
            random::steps(&mut rng, &Replica::fresh(), 5),
        )
    };
    assert_eq!(run(7), run(7));
    assert_ne!(run(7), run(8));
}

#[test]
fn every_reading_answer_and_type_occurs() {
    let mut rng = Rng::new(61);
    let mut refused = [0; 11];
    let mut types = [0; 8];
    for _ in 0..100_000 {
        match read(&random::message(&mut rng, 100)) {
            Err(number) => refused[number as usize] += 1,
            Ok(Message::ConnectInfo(_)) => types[0] += 1,
            Ok(Message::AddPlayer(_)) => types[1] += 1,
            Ok(Message::DestroyPlayer(_)) => types[2] += 1,
            Ok(Message::RequestAddPlayerToGroup(_)) => types[3] += 1,
            Ok(Message::CreateGroup(_)) => types[4] += 1,
            Ok(Message::DestroyGroup(_)) => types[5] += 1,
            Ok(Message::AddPlayerToGroup(_)) => types[6] += 1,
            Ok(Message::DeletePlayerFromGroup(_)) => types[7] += 1,
        }
    }
    assert!(refused[1..].iter().all(|&count| count > 20), "{refused:?}");
    assert!(types.iter().all(|&count| count > 1_000), "{types:?}");
}

/// Which number of a hollow pair is not 0, and where it points to as an offset.
fn kind(m: &[u8], pair: usize, fixed: usize) -> &'static str {
    let (offset, _) = pair_at(m, pair);
    match offset as usize + 4 {
        4 => "size",
        start if start < fixed => "offset in the fixed part",
        start if start < m.len() => "offset behind it",
        start if start == m.len() => "offset at the end",
        _ => "offset past the end",
    }
}

#[test]
fn connect_info_with_hollow_pairs_of_every_field() {
    let mut rng = Rng::new(65);
    let mut seen = BTreeMap::new();
    for _ in 0..100_000 {
        let m = random::message(&mut rng, 100);
        let Ok(Message::ConnectInfo(c)) = read(&m) else {
            continue;
        };
        let (fixed, fields) = if c.dnet_version < 7 { (84, 5) } else { (92, 6) };
        for (_, pair) in &CONNECT_INFO_PAIRS[..fields] {
            if is_hollow(pair_at(&m, *pair)) {
                *seen
                    .entry((fixed, pair, kind(&m, *pair, fixed)))
                    .or_insert(0) += 1;
            }
        }
    }
    // Five kinds of hollow pair for each field of the two forms.
    assert_eq!(seen.len(), 5 * (5 + 6), "{seen:?}");
    assert!(seen.values().all(|&count| count > 20), "{seen:?}");
}

#[test]
fn entries_with_hollow_pairs_of_every_field() {
    let mut rng = Rng::new(66);
    let mut seen = BTreeMap::new();
    for _ in 0..100_000 {
        let m = random::message(&mut rng, 100);
        if read(&m) != Err(8) {
            continue;
        }
        let pairs = match m[0] {
            0xD0 => ADD_PLAYER_PAIRS,
            _ => CREATE_GROUP_PAIRS,
        };
        for (_, pair) in pairs {
            let numbers = pair_at(&m, pair);
            if is_hollow(numbers) {
                *seen.entry((m[0], pair, numbers.0 == 0)).or_insert(0) += 1;
            }
        }
    }
    // Of both types: an offset alone and a size alone for each field.
    assert_eq!(seen.len(), 2 * 2 * 3, "{seen:?}");
    assert!(seen.values().all(|&count| count > 20), "{seen:?}");
}

/// Names as long as what is kept, a little shorter and longer; cut in the middle
/// of a character; and sent again with one unit changed.
#[test]
fn names_of_messages() {
    let mut rng = Rng::new(67);
    let (mut lengths, mut halved, mut seen) = (BTreeMap::new(), 0, [0; 2]);
    for _ in 0..20_000 {
        let mut m = match rng.one_in(2) {
            true => random::add_player(&mut rng, 9),
            false => random::create_group(&mut rng, 9),
        };
        let place = read(&m).map_or(None, |said| said.place(FieldName::Name));
        let Some(Part { start, size, .. }) = place else {
            continue;
        };
        *lengths.entry(size / 2 - 1).or_insert(0) += 1;
        halved += u32::from(size > 66 && m[start + 61] == 0xD8 && m[start + 63] == 0xDE);
        let mut replica = replica_t();
        assert_eq!(replica.deliver(&m), Answer::Waits);
        if random::change_unit(&mut rng, &mut m) {
            match replica.deliver(&m) {
                Answer::Refused(16) => seen[0] += 1,
                Answer::Refused(17) => seen[1] += 1,
                other => panic!("{other:?}"),
            }
        }
    }
    for length in [0, 1, 9, 30, 31, 32, 33] {
        assert!(lengths[&length] > 100, "{lengths:?}");
    }
    assert!(lengths.keys().any(|length| *length > 200), "{lengths:?}");
    assert!(
        halved > 100 && seen.iter().all(|count| *count > 500),
        "{halved} {seen:?}"
    );
}

/// Texts with pairs, with halves that are alone, with both the wrong way round, and with a pair that a name's cut parts.
#[test]
fn halves_in_texts() {
    let mut rng = Rng::new(70);
    let mut seen = [0; 5];
    for _ in 0..20_000 {
        let bytes = random::wide_text(&mut rng);
        let units: Vec<u16> = bytes
            .chunks(2)
            .map(|u| u16::from_le_bytes([u[0], u[1]]))
            .collect();
        let has = |first: u16, second: u16| {
            let kinds = |pair: &[u16]| (pair[0] & 0xFC00, pair[1] & 0xFC00);
            units.windows(2).any(|pair| kinds(pair) == (first, second))
        };
        let found = [
            has(0xD800, 0xDC00),
            has(0xD800, 0),
            has(0, 0xDC00),
            has(0xDC00, 0xD800),
            units.len() > 32 && units[30] & 0xFC00 == 0xD800 && units[31] & 0xFC00 == 0xDC00,
        ];
        for (count, found) in seen.iter_mut().zip(found) {
            *count += u32::from(found);
        }
    }
    assert!(seen.iter().all(|count| *count > 1_000), "{seen:?}");
}

/// The twin of an operation keeps the same but for its type, and is of the same
/// version; the twin of a twin is the operation, as far as it is kept.
#[test]
fn twins() {
    let mut rng = Rng::new(68);
    let kept = |m: &[u8]| Operation::kept_of(m, &read(m).unwrap()).unwrap();
    let mut seen = BTreeMap::new();
    for _ in 0..20_000 {
        let first = random::operation_of(&mut rng, 9);
        let mut twin = first.clone();
        if !random::make_twin(&mut twin) {
            assert!(read(&first).is_err() && twin == first);
            continue;
        }
        let mut again = twin.clone();
        // Longer by 8 bytes a message may be too long.
        if !random::make_twin(&mut again) {
            assert_eq!(read(&twin), Err(1));
            continue;
        }
        assert_eq!(kept(&again), kept(&first));
        assert_ne!(kept(&twin), kept(&first));
        let name = |m: &[u8]| kept(m).name().to_vec();
        assert_eq!(
            (kept(&twin).version(), name(&twin)),
            (9, name(&first)),
            "{first:?}"
        );
        *seen.entry((first[0], twin[0])).or_insert(0) += 1;
    }
    let pairs = [(0xD0, 0xD7), (0xD1, 0xD8), (0xD9, 0xDA)];
    for (one, other) in pairs {
        assert!(seen[&(one, other)] > 500 && seen[&(other, one)] > 500);
    }
    assert!(!random::make_twin(&mut le(&[0xD3, 0, 1, 1])));
}

#[test]
fn generated_operations_fail_in_length_or_fields_only() {
    let mut rng = Rng::new(62);
    for _ in 0..20_000 {
        let answer = read(&random::operation(&mut rng, 100));
        assert!(
            matches!(answer, Ok(_) | Err(1) | Err(9) | Err(10)),
            "{answer:?}"
        );
    }
}

fn type_and_kind(operation: &Operation) -> (u32, u32) {
    match operation {
        Operation::AddEntry(entry) => (1, entry.kind),
        Operation::DestroyEntry { kind, .. } => (2, *kind),
        Operation::AddPlayerToGroup { .. } => (3, 0),
        Operation::DeletePlayerFromGroup { .. } => (4, 0),
    }
}

#[test]
fn replicas_reach_the_limits() {
    let mut rng = Rng::new(63);
    let made: Vec<Replica> = (0..2_000).map(|_| random::replica(&mut rng)).collect();
    assert!(made.iter().all(Replica::is_valid));
    assert!(made
        .iter()
        .any(|r| r.entries.len() == 64 && r.memberships.len() == 128));
    assert!(made.iter().any(|r| r.version == u32::MAX));
    assert!(made.iter().any(|r| r.version == 0));
    assert!(made.iter().any(|r| r.pending.len() == 31));
    let lengths = |r: &Replica| r.entries.iter().map(|e| e.name.len()).collect::<Vec<_>>();
    assert!(made.iter().any(|r| lengths(r) == [31; 64]));
    assert!(made.iter().any(|r| lengths(r).contains(&0)));
    let adds = made.iter().flat_map(|r| &r.pending);
    assert!(adds.map(|p| p.name().len()).max() == Some(31));
    // Every operation is among those that wait, of either kind.
    let waiting = made.iter().flat_map(|r| &r.pending);
    let types: BTreeSet<(u32, u32)> = waiting.map(type_and_kind).collect();
    assert_eq!(types.len(), 6, "{types:?}");
}

#[test]
fn full_replicas() {
    let mut rng = Rng::new(69);
    for _ in 0..200 {
        let made = random::full_replica(&mut rng);
        let counts = (made.entries.len(), made.memberships.len());
        assert!(made.is_valid() && counts == (64, 128) && made.pending.is_empty());
    }
}

#[test]
fn damaged_replicas_are_mostly_28() {
    let mut rng = Rng::new(64);
    let count_28 = (0..2_000)
        .filter(|_| random::damaged_replica(&mut rng).deliver(&[]) == Answer::Refused(28))
        .count();
    assert!(count_28 > 1_000 && count_28 < 2_000, "{count_28}");
}
