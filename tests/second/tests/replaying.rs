//! The replica against the replay of 01, over whole lists of messages, and of
//! deliveries and batches in turn (02 A2).

mod common;
use common::*;
use second::random::{self, Rng};
use second::replay::{delivered, replay, Outcome, Step};
use second::replica::{Answer, Replica};
use std::collections::BTreeMap;

/// Delivers the list to a replica and demands the replay's outcome throughout.
fn compare(start: &Replica, list: &[Vec<u8>]) -> Vec<Answer> {
    let mut replica = start.clone();
    let answers: Vec<Answer> = list.iter().map(|m| replica.deliver(m)).collect();
    demand(&replica, &answers, &replay(&start.name_table(), list));
    answers
}

fn demand(replica: &Replica, answers: &[Answer], outcome: &Outcome) {
    assert_eq!(answers, outcome.answers);
    assert_eq!(replica.name_table(), outcome.name_table);
    assert_eq!(replica.pending, outcome.above_reach);
    assert!(replica.is_valid());
}

/// The same of deliveries and batches; the answer of each step, a delivery's 0.
fn compare_steps(start: &Replica, steps: &[Step]) -> Vec<u32> {
    let mut replica = start.clone();
    let (answers, numbers) = take_steps(&mut replica, steps);
    let outcome = replay(&start.name_table(), &delivered(steps));
    demand(&replica, &answers, &outcome);
    numbers
}

#[test]
fn t_and_its_two_messages() {
    let list = [destroy_player(100, 7), add_player(400, 6)];
    assert_eq!(compare(&replica_t(), &list), [Answer::Waits, applied(2, 0)]);
}

#[test]
fn no_messages() {
    let outcome = replay::<Vec<u8>>(&replica_t().name_table(), &[]);
    assert_eq!(outcome.name_table, replica_t().name_table());
    assert!(outcome.answers.is_empty() && outcome.above_reach.is_empty());
}

#[test]
fn four_operations_in_any_order_end_alike() {
    let of_players = [
        add_player(9, 6),
        add_player_to_group(300, 9, 7),
        destroy_player(200, 8),
        add_player(200, 9),
    ];
    let of_groups = [
        create_group(9, 6),
        add_player_to_group(9, 100, 7),
        destroy_group(300, 8),
        delete_player_from_group(9, 100, 9),
    ];
    in_any_order(of_players);
    in_any_order(of_groups);
}

fn in_any_order(ops: [Vec<u8>; 4]) {
    let mut ends = Vec::new();
    for order in 0..24 {
        let mut left: Vec<Vec<u8>> = ops.to_vec();
        let (a, b, c) = (order % 4, order / 4 % 3, order / 12);
        let list = [
            left.remove(a),
            left.remove(b),
            left.remove(c),
            left.remove(0),
        ];
        compare(&replica_t(), &list);
        ends.push(replay(&replica_t().name_table(), &list).name_table);
    }
    assert!(ends.iter().all(|end| *end == ends[0]));
    assert_eq!(ends[0].version, 9);
}

fn key(answer: &Answer) -> String {
    match answer {
        Answer::Refused(number) => format!("refused {number}"),
        Answer::Waits => "waits".to_string(),
        Answer::Applied { passed: 1, noops } => format!("applied 1, no-ops {noops}"),
        Answer::Applied { passed: 32, .. } => "applied 32".to_string(),
        Answer::Applied { noops: 0, .. } => "applied more".to_string(),
        Answer::Applied { .. } => "applied more, no-ops".to_string(),
    }
}

#[test]
fn random_lists() {
    let mut rng = Rng::new(41);
    let mut seen: BTreeMap<String, usize> = BTreeMap::new();
    for _ in 0..600 {
        let mut start = random::replica(&mut rng);
        start.pending.clear();
        if rng.one_in(10) {
            start = Replica::fresh();
        }
        let count = rng.between(1, 250);
        let list = random::message_list(&mut rng, &start, count);
        for answer in compare(&start, &list) {
            *seen.entry(key(&answer)).or_default() += 1;
        }
    }
    assert!(seen.values().sum::<usize>() > 20_000);
    for number in (1..=10).chain(13..=17) {
        assert!(
            seen.contains_key(&format!("refused {number}")),
            "{number}: {seen:?}"
        );
    }
    for kind in [
        "waits",
        "applied 1, no-ops 0",
        "applied 1, no-ops 1",
        "applied 32",
        "applied more",
        "applied more, no-ops",
    ] {
        assert!(seen.contains_key(kind), "{kind}: {seen:?}");
    }
    println!("{seen:#?}");
}

#[test]
fn random_operations_only() {
    let mut rng = Rng::new(42);
    for _ in 0..300 {
        let mut replica = random::replica(&mut rng);
        replica.pending.clear();
        let start = replica.clone();
        let mut list = Vec::new();
        for _ in 0..100 {
            let m = random::operation(&mut rng, replica.version);
            replica.deliver(&m);
            list.push(m);
        }
        compare(&start, &list);
    }
}

/// What waits from one call is applied in the next; a batch that is refused
/// whole lets nothing wait.
#[test]
fn deliveries_and_batches_of_t() {
    let batch = |list: &[Vec<u8>], room| Step::Batch(framed(&[], list), room);
    let refused = [add_player(401, 9), add_player(402, 10)];
    let steps = [
        batch(&[add_player(400, 8), destroy_player(100, 7)], 2),
        batch(&refused, 1),
        Step::Delivery(add_player(300, 6)),
        batch(&refused, 2),
    ];
    assert_eq!(compare_steps(&replica_t(), &steps), [0, 29, 0, 0]);
    assert_eq!(delivered(&steps).len(), 2 + 1 + 2);
    let outcome = replay(&replica_t().name_table(), &delivered(&steps));
    let expected = [
        Answer::Waits,
        Answer::Waits,
        applied(3, 1),
        applied(1, 0),
        applied(1, 0),
    ];
    assert_eq!(outcome.answers, expected);
}

#[test]
fn random_steps() {
    let mut rng = Rng::new(43);
    let mut seen = [0; 2];
    for _ in 0..600 {
        let mut start = random::replica(&mut rng);
        start.pending.clear();
        let count = rng.between(1, 25);
        let steps = random::steps(&mut rng, &start, count);
        for number in compare_steps(&start, &steps) {
            seen[usize::from(number == 29)] += 1;
        }
    }
    assert!(seen.iter().all(|count| *count > 500), "{seen:?}");
}
