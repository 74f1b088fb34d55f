//! Nothing waits for good (02 A11): where an operation of every version up to a
//! target, at most 32 above the replica's, is delivered, the replica ends there
//! or above; and one that is behind lacks the next version.

mod common;
use common::*;
use second::operation::Operation;
use second::random::{self, calls, operations_up_to, well_formed_operation, Rng};
use second::replay::{delivered, replay, Step};
use second::replica::{Answer, Replica};
use std::collections::BTreeSet;

const STARTS: usize = 500;

/// The version of an operation that is read.
fn version_of(m: &[u8]) -> Option<u32> {
    Operation::in_message(m).map(|operation| operation.version())
}

/// With pending operations about half the time, and a target that is 32 above
/// about half the time, or as far as there are versions.
fn start_and_target(rng: &mut Rng) -> (Replica, u32) {
    let start = random::replica(rng);
    let any = rng.between(1, 32) as u32;
    let target = start.version.saturating_add(rng.pick(&[any, 32]));
    if target == start.version {
        return start_and_target(rng);
    }
    (start, target)
}

fn waits(start: &Replica, version: u32) -> bool {
    start.pending.iter().any(|p| p.version() == version)
}

/// All of the operations in any order, among others of the same versions and of
/// other versions, some of them again, and messages of any kind.
fn among_others(rng: &mut Rng, start: &Replica, target: u32) -> Vec<Vec<u8>> {
    let mut list = operations_up_to(rng, start.version, target);
    let count = rng.between(1, 40);
    list.extend(random::message_list(rng, start, count));
    let again = rng.below(list.len());
    random::mixed(rng, list, again)
}

fn deliveries(list: &[Vec<u8>]) -> Vec<Step> {
    list.iter().cloned().map(Step::Delivery).collect()
}

/// The version at the end, the replay's too where nothing waits at the start. No
/// operation of the next version waited, and each that came was too far ahead:
/// none less than 32 above the start.
fn end(start: &Replica, steps: &[Step]) -> u32 {
    let mut replica = start.clone();
    let (answers, _) = take_steps(&mut replica, steps);
    let messages = delivered(steps);
    if start.pending.is_empty() {
        let outcome = replay(&start.name_table(), &messages);
        assert_eq!(outcome.name_table, replica.name_table());
    }
    let Some(next) = replica.version.checked_add(1) else {
        return replica.version;
    };
    assert_eq!(answers.len(), messages.len());
    let mut of_next = messages.iter().zip(answers);
    let early = next - start.version > 32;
    assert!(
        of_next
            .all(|(m, answer)| version_of(m) != Some(next)
                || (early && answer == Answer::Refused(15)))
    );
    assert!(!waits(start, next));
    replica.version
}

#[test]
fn every_version_in_any_order() {
    let mut rng = Rng::new(91);
    for _ in 0..STARTS {
        let (start, target) = start_and_target(&mut rng);
        let nothing_waits = Replica::from_name_table(&start.name_table());
        let mut list = operations_up_to(&mut rng, start.version, target);
        match rng.one_in(3) {
            true => list.reverse(),
            false => rng.shuffle(&mut list),
        }
        assert!(end(&start, &deliveries(&list)) >= target);
        assert_eq!(end(&nothing_waits, &deliveries(&list)), target);
    }
}

#[test]
fn thirty_two_versions_backwards() {
    let mut list = operations_up_to(&mut Rng::new(92), 5, 37);
    list.reverse();
    let mut replica = replica_t();
    let (answers, _) = take_steps(&mut replica, &deliveries(&list));
    assert_eq!(answers[..31], [Answer::Waits; 31]);
    assert!(matches!(answers[31], Answer::Applied { passed: 32, .. }));
    assert_eq!((replica.version, replica.pending.len()), (37, 0));
}

#[test]
fn among_messages_of_every_kind() {
    let mut rng = Rng::new(93);
    let (mut seen, mut refused_whole) = (BTreeSet::new(), 0);
    for _ in 0..STARTS {
        let (start, target) = start_and_target(&mut rng);
        let list = among_others(&mut rng, &start, target);
        let steps = calls(&mut rng, &list, &add_player(400, target));
        assert!(end(&start, &steps) >= target);
        let (answers, numbers) = take_steps(&mut start.clone(), &steps);
        seen.extend(answers.iter().map(|answer| match answer {
            Answer::Refused(number) => *number,
            _ => 0,
        }));
        refused_whole += numbers.iter().filter(|number| **number == 29).count();
    }
    assert!(seen.into_iter().eq((0..=10).chain(13..=17)));
    assert!(refused_whole > STARTS, "{refused_whole}");
}

#[test]
fn what_waits_at_the_start_need_not_come() {
    let mut rng = Rng::new(94);
    let mut fewer = 0;
    for _ in 0..STARTS {
        let (start, target) = start_and_target(&mut rng);
        let mut list = among_others(&mut rng, &start, target);
        list.retain(|m| !version_of(m).is_some_and(|own| waits(&start, own)));
        let steps = calls(&mut rng, &list, &add_player(400, target));
        assert!(end(&start, &steps) >= target);
        fewer += usize::from(start.pending.iter().any(|p| p.version() <= target));
    }
    assert!(fewer > STARTS / 4, "{fewer}");
}

/// It comes in batches that are refused whole, and cut short, and last of all.
#[test]
fn a_version_left_out() {
    let mut rng = Rng::new(95);
    for _ in 0..STARTS {
        let (start, target) = start_and_target(&mut rng);
        let above = (start.version..target).map(|below| below + 1);
        let free: Vec<u32> = above.filter(|own| !waits(&start, *own)).collect();
        let left_out = rng.pick(&free);
        let one_more = well_formed_operation(&mut rng, left_out);
        let mut list = among_others(&mut rng, &start, target);
        list.retain(|m| version_of(m) != Some(left_out));
        let mut steps = calls(&mut rng, &list, &one_more);
        assert_eq!(end(&start, &steps), left_out - 1);
        steps.push(Step::Delivery(one_more));
        assert!(end(&start, &steps) >= target);
    }
}

#[test]
fn any_calls() {
    let mut rng = Rng::new(96);
    let mut seen = [0; 2];
    for _ in 0..STARTS {
        let start = random::replica(&mut rng);
        let count = rng.between(1, 40);
        let steps = random::steps(&mut rng, &start, count);
        seen[usize::from(end(&start, &steps) - start.version >= 32)] += 1;
    }
    assert!(seen.iter().all(|count| *count > 100), "{seen:?}");
}

/// 38 comes while it is too far ahead, and never again.
#[test]
fn thirty_three_above_is_not_promised() {
    let mut list = operations_up_to(&mut Rng::new(97), 5, 38);
    assert_eq!(end(&replica_t(), &deliveries(&list)), 38);
    list.reverse();
    assert_eq!(replica_t().deliver(&list[0]), Answer::Refused(15));
    assert_eq!(end(&replica_t(), &deliveries(&list)), 37);
}

/// Small versions are passed: none comes behind the largest.
#[test]
fn versions_never_wrap() {
    let mut rng = Rng::new(98);
    for above in 0..=32 {
        let mut start = replica_t();
        start.version = u32::MAX - above;
        let mut list = operations_up_to(&mut rng, start.version, u32::MAX);
        list.extend((0..40).map(|small| well_formed_operation(&mut rng, small)));
        rng.shuffle(&mut list);
        assert_eq!(end(&start, &deliveries(&list)), u32::MAX);
    }
}

#[test]
fn a_replica_that_is_not_valid_stays() {
    let mut rng = Rng::new(99);
    let mut seen = [0; 2];
    for _ in 0..STARTS {
        let start = random::damaged_replica(&mut rng);
        seen[usize::from(start.is_valid())] += 1;
        let target = start.version.saturating_add(32);
        let list = among_others(&mut rng, &start, target);
        let mut replica = start.clone();
        take_steps(&mut replica, &calls(&mut rng, &list, &[]));
        assert!(start.is_valid() || replica == start);
    }
    assert!(seen[0] > STARTS / 2, "{seen:?}");
}
