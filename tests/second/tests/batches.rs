//! The batch (02 A2): it is its messages delivered one by one, or nothing.

mod common;
use common::*;
use second::batch::Batch;
use second::meaning::meaning;
use second::random::{self, Rng};
use second::replica::{Answer, Replica};
use std::collections::BTreeSet;

/// What records hold before a call; no message is answered so.
const UNTOUCHED: Answer = Answer::Refused(99);

/// The answer of a batch into so many records, and these.
fn batch(replica: &mut Replica, input: &[u8], room: usize) -> (Result<Batch, u32>, Vec<Answer>) {
    let mut records = vec![UNTOUCHED; room];
    let answer = replica.batch(input, &mut records);
    (answer, records)
}

fn frames(list: &[Vec<u8>]) -> Vec<u8> {
    framed(&[], list)
}

fn done(count: usize, cut: bool) -> Result<Batch, u32> {
    Ok(Batch { count, cut })
}

/// Into so many records more than there are messages: the replica and the
/// records of the messages delivered one by one, and the others untouched.
fn same_one_by_one(start: &Replica, list: &[Vec<u8>], tail: &[u8], more: usize) -> Vec<Answer> {
    let mut alone = start.clone();
    let mut expected: Vec<Answer> = list.iter().map(|m| alone.deliver(m)).collect();
    let answers = expected.clone();
    expected.resize(list.len() + more, UNTOUCHED);
    let mut replica = start.clone();
    let input = [&frames(list), tail].concat();
    let (answer, records) = batch(&mut replica, &input, list.len() + more);
    assert_eq!(answer, done(list.len(), !tail.is_empty()));
    assert_eq!((records, replica), (expected, alone));
    answers
}

/// Refused with this number, replica and records as they were.
fn refused(start: &Replica, input: &[u8], room: usize, number: u32) {
    let mut replica = start.clone();
    let (answer, records) = batch(&mut replica, input, room);
    assert_eq!((answer, &replica), (Err(number), start));
    assert!(records.iter().all(|r| *r == UNTOUCHED));
}

#[test]
fn t_and_its_two_messages() {
    let list = [destroy_player(100, 7), add_player(400, 6)];
    let input = [frames(&list), vec![0, 0, 0]].concat();
    let mut replica = replica_t();
    let (answer, records) = batch(&mut replica, &input, 3);
    assert_eq!(answer, done(2, true));
    assert_eq!(records, [Answer::Waits, applied(2, 0), UNTOUCHED]);
    assert_eq!((replica.version, replica.host), (7, 0));
}

#[test]
fn no_message() {
    for room in [0, 1, 4] {
        same_one_by_one(&replica_t(), &[], &[], room);
        same_one_by_one(&replica_t(), &[], &[0, 0, 0], room);
        same_one_by_one(&replica_t(), &[], &[0, 0, 0, 1], room);
    }
}

#[test]
fn lengths_at_the_edges() {
    let long = |id, version, length| {
        let mut m = add_player(id, version);
        m.resize(length, 0);
        m
    };
    let list = [
        vec![],
        long(400, 6, 16_384),
        long(401, 7, 16_385),
        vec![],
        add_player(402, 7),
    ];
    let answers = same_one_by_one(&replica_t(), &list, &[], 0);
    let (no_bytes, too_long) = (Answer::Refused(2), Answer::Refused(1));
    let expected = [no_bytes, applied(1, 0), too_long, no_bytes, applied(1, 0)];
    assert_eq!(answers, expected);
}

/// Every number a delivery can answer; the batch goes on behind each of them.
#[test]
fn every_number_in_a_record() {
    let d0 = |pair: [u32; 2]| le(&[0xD0, 9, 0, 0, 6, 0, 7, pair[0], pair[1], 0, 0, 0, 0]);
    let mut wrong_flags = le(&[0xC1, 3, 6]);
    wrong_flags.resize(84, 0);
    let destroy = destroy_player(100, 6);
    let list = [
        vec![0; 16_385],
        vec![],
        le(&[0xFF]),
        destroy[..19].to_vec(),
        [&destroy[..], &[0]].concat(),
        wrong_flags,
        destroy_player(0, 6),
        d0([48, 0]),
        d0([48, 2]),
        [d0([48, 2]), vec![1, 0]].concat(),
        le(&[0xD3, 0, 300, 200]),
        add_player(400, 5),
        add_player(400, 38),
        add_player(400, 7),
        add_player(400, 7),
        add_player(401, 7),
        add_player(402, 6),
    ];
    let answers = same_one_by_one(&replica_t(), &list, &[], 1);
    let numbers: Vec<u32> = (1..=10).chain(13..=15).collect();
    let mut expected: Vec<Answer> = numbers.into_iter().map(Answer::Refused).collect();
    expected.extend([Answer::Waits, Answer::Refused(16), Answer::Refused(17)]);
    expected.push(applied(2, 0));
    assert_eq!(answers, expected);
}

/// Cut anywhere: whole messages are delivered, of a part nothing is.
#[test]
fn every_place_to_cut() {
    let list = [add_player(400, 6), vec![], destroy_player(400, 7)];
    let input = frames(&list);
    let ends: Vec<usize> = (0..=3).map(|n| frames(&list[..n]).len()).collect();
    for length in 0..=input.len() {
        let whole = ends.iter().filter(|end| **end <= length).count() - 1;
        let tail = &input[ends[whole]..length];
        same_one_by_one(&replica_t(), &list[..whole], tail, 2);
    }
}

/// Behind each of these lengths stands less than it says, though an operation
/// that would be applied.
#[test]
fn lengths_never_wrap() {
    let m = add_player(400, 6);
    let more = m.len() as u32 + 1;
    for length in [more, 0x8000_0000, 0xFFFF_FFFB, 0xFFFF_FFFC, u32::MAX] {
        let tail = [&length.to_be_bytes()[..], &m].concat();
        same_one_by_one(&replica_t(), &[], &tail, 1);
        same_one_by_one(&replica_t(), &[destroy_player(100, 6)], &tail, 1);
    }
}

#[test]
fn more_messages_than_records() {
    let list = [add_player(400, 6), vec![], destroy_player(400, 7)];
    let input = frames(&list);
    for room in 0..3 {
        refused(&replica_t(), &input, room, 29);
        refused(&replica_t(), &[&input[..], &[1]].concat(), room, 29);
    }
    same_one_by_one(&replica_t(), &list, &[], 0);
    same_one_by_one(&replica_t(), &list, &[], 1);
    assert_eq!(meaning(29), "more messages than records");
}

#[test]
fn a_tail_needs_no_record() {
    let list = [add_player(400, 6), destroy_player(400, 7)];
    let whole = frames(&[add_player(401, 8)]);
    for length in 1..whole.len() {
        same_one_by_one(&replica_t(), &list, &whole[..length], 0);
    }
    refused(&replica_t(), &[frames(&list), whole].concat(), 2, 29);
}

#[test]
fn an_invalid_replica_is_28_before_29() {
    let broken = Replica {
        host: 300,
        ..replica_t()
    };
    let input = frames(&[add_player(400, 6), add_player(401, 7)]);
    for room in 0..4 {
        refused(&broken, &input, room, 28);
        refused(&broken, &[], room, 28);
    }
}

/// A tail that is no whole message.
fn tail(rng: &mut Rng, version: u32) -> Vec<u8> {
    let mut whole = frames(&[random::operation(rng, version)]);
    whole.truncate(rng.below(whole.len()));
    whole
}

#[test]
fn random_lists_equal_one_by_one() {
    let mut rng = Rng::new(71);
    let mut seen = BTreeSet::new();
    for _ in 0..2_000 {
        let start = random::replica(&mut rng);
        let count = rng.between(0, 60);
        let list = random::message_list(&mut rng, &start, count);
        let tail = tail(&mut rng, start.version);
        let more = rng.below(3);
        let answers = same_one_by_one(&start, &list, &tail, more);
        seen.extend(answers.iter().map(|answer| match answer {
            Answer::Refused(number) => *number,
            _ => 0,
        }));
    }
    assert!(seen.into_iter().eq((0..=10).chain(13..=17)));
}

#[test]
fn random_inputs_and_rooms() {
    let mut rng = Rng::new(72);
    let mut seen = [0; 3];
    for _ in 0..5_000 {
        let start = random::any_replica(&mut rng);
        let list = random::message_list(&mut rng, &start, 8);
        let input = random::batch_input(&mut rng, &start, list);
        let (whole, cut) = second::framing::messages(&input);
        let room = random::record_count(&mut rng, whole.len());
        if !start.is_valid() {
            refused(&start, &input, room, 28);
            seen[0] += 1;
        } else if whole.len() > room {
            refused(&start, &input, room, 29);
            seen[1] += 1;
        } else {
            let list: Vec<Vec<u8>> = whole.iter().map(|m| m.to_vec()).collect();
            let tail = &input[frames(&list).len()..];
            assert_eq!(tail.is_empty(), !cut);
            same_one_by_one(&start, &list, tail, room - list.len());
            seen[2] += 1;
        }
    }
    assert!(seen.iter().all(|count| *count > 300), "{seen:?}");
}
