//! Adding an entry (02 A6): no operation that is applied has the version of an
//! entry, so the rule needs no word on it.

mod common;
use common::*;
use second::name_table::{GROUP, PLAYER};
use second::random::{self, Rng};
use second::replica::{Answer, Replica};

const STARTS: u64 = 400;
const LENGTH: u32 = 31;

/// A valid replica with nothing pending and room above its version, and an
/// operation of each of the next versions; half of them add.
fn start_and_operations(seed: u64) -> (Replica, Vec<Vec<u8>>) {
    let mut rng = Rng::new(seed);
    loop {
        let mut start = random::replica(&mut rng);
        start.pending.clear();
        if start.version > u32::MAX - LENGTH - 1 {
            continue;
        }
        let one = |k: u32| {
            random::until_read(&mut rng, |rng| match rng.below(4) {
                0 => random::add_player(rng, start.version + k),
                1 => random::create_group(rng, start.version + k),
                _ => random::operation_of(rng, start.version + k),
            })
        };
        let list = (1..=LENGTH).map(one).collect();
        return (start, list);
    }
}

fn versions(replica: &Replica) -> Vec<u32> {
    replica.entries.iter().map(|e| e.version).collect()
}

#[test]
fn a_version_that_is_delivered_is_no_entrys() {
    let mut added = [0, 0];
    for seed in 0..STARTS {
        let (mut replica, list) = start_and_operations(seed);
        for m in list {
            let next = replica.version + 1;
            assert!(!versions(&replica).contains(&next));
            assert!(matches!(replica.deliver(&m), Answer::Applied { .. }));
            match replica.entries.last() {
                Some(e) if e.version == next => added[(e.kind == GROUP) as usize] += 1,
                _ => {}
            }
        }
    }
    assert!(added[0] > 100 && added[1] > 100, "{added:?}");
}

#[test]
fn drained_and_in_a_batch_all_is_the_same() {
    for seed in 0..STARTS {
        let (start, list) = start_and_operations(seed);
        let (mut in_turn, mut drained, mut batched) = (start.clone(), start.clone(), start);
        for m in &list {
            in_turn.deliver(m);
        }
        for m in list.iter().rev() {
            drained.deliver(m);
        }
        let input = random::framed(&list);
        let mut records = vec![Answer::Waits; list.len()];
        assert!(batched.batch(&input, &mut records).is_ok());
        assert!(in_turn.is_valid() && drained == in_turn && batched == in_turn);
        assert!(versions(&in_turn).windows(2).all(|w| w[0] < w[1]));
    }
}

#[test]
fn an_entry_of_the_next_version_makes_a_replica_invalid() {
    for kind in [PLAYER, GROUP] {
        let mut replica = replica_t();
        replica.entries.push(entry(kind, 7, replica.version));
        let mut valid = replica.clone();
        assert_eq!(valid.deliver(&add_player(400, 6)), applied(1, 0));
        assert_eq!(valid.entries.last(), Some(&entry(PLAYER, 400, 6)));
        replica.version -= 1;
        let before = replica.clone();
        assert_eq!(replica.deliver(&add_player(400, 5)), Answer::Refused(28));
        assert_eq!(replica.deliver(&create_group(400, 5)), Answer::Refused(28));
        assert_eq!(replica, before);
    }
}
