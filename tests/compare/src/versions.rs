//! Entries that are added right above the newest one (02, A6): by themselves, as they drain, and in a batch. And replicas in which an entry
//! has the next version already: they are not valid, and whatever adds an entry of that version is refused with 28.

use crate::batches::compare_batch;
use crate::comparison::{Comparison, Verdict};
use crate::names::{any_units, deliver};
use crate::operations::add;
use crate::replicas::{compare_other_calls, early_replica};
use dp8::{Answer, Replica, ENTRIES, GROUP, PENDING, PLAYER};
use second::random::{framed, Rng};

/// No random message names it.
const ID: u32 = 2_000_000;
/// So many entries are added, of versions that follow one another.
const ADDED: u32 = 3;

pub fn compare_new_versions(c: &mut Comparison, rng: &mut Rng) -> Verdict {
    let mut replica = early_replica(rng);
    replica.pending = [Default::default(); PENDING];
    if replica.used_entries().len() + ADDED as usize > ENTRIES {
        return Ok(());
    }
    let list = additions(rng, replica.version);
    let how = match rng.below(3) {
        0 => in_turn(c, &mut replica, &list)?,
        1 => drained(c, &mut replica, &list)?,
        _ => in_a_batch(c, rng, &mut replica, &list)?,
    };
    for m in &list[1..] {
        c.typed_event(m[0], how);
    }
    compare_other_calls(c, rng, &replica)?;
    replica.version -= 1;
    next_version_stands(c, rng, replica)
}

/// Players and groups of the next versions.
fn additions(rng: &mut Rng, version: u32) -> Vec<Vec<u8>> {
    let one = |k: u32| {
        let (kind, units) = (rng.pick(&[PLAYER, GROUP]), any_units(rng));
        let name = (!rng.one_in(3)).then_some(&units[..]);
        add(rng, kind, ID + k, version + k, name)
    };
    (1..=ADDED).map(one).collect()
}

type How = Result<&'static str, crate::comparison::Difference>;

fn in_turn(c: &mut Comparison, replica: &mut Replica, list: &[Vec<u8>]) -> How {
    for m in list {
        assert_eq!(deliver(c, replica, m)?, applied(1));
    }
    Ok("added right above the newest: delivered")
}

fn drained(c: &mut Comparison, replica: &mut Replica, list: &[Vec<u8>]) -> How {
    for m in list[1..].iter().rev() {
        assert_eq!(deliver(c, replica, m)?, Answer::default());
    }
    assert_eq!(deliver(c, replica, &list[0])?, applied(ADDED));
    Ok("added right above the newest: drained")
}

fn in_a_batch(c: &mut Comparison, rng: &mut Rng, replica: &mut Replica, list: &[Vec<u8>]) -> How {
    let given = (list.len(), rng.byte());
    let (_, records) = compare_batch(c, replica, &framed(list), given)?;
    assert_eq!(records, vec![applied(1); list.len()]);
    Ok("added right above the newest: in a batch")
}

/// The newest entry has the next version.
fn next_version_stands(c: &mut Comparison, rng: &mut Rng, mut replica: Replica) -> Verdict {
    let list = additions(rng, replica.version);
    let refused = Answer {
        number: 28,
        ..Answer::default()
    };
    assert_eq!(deliver(c, &mut replica, &list[0])?, refused);
    let (answer, _) = compare_batch(c, &mut replica, &framed(&list), (list.len(), rng.byte()))?;
    assert_eq!(answer.number, 28);
    c.typed_event(list[0][0], "refused 28: an entry has its version");
    compare_other_calls(c, rng, &replica)
}

fn applied(passed: u32) -> Answer {
    Answer {
        passed,
        ..Answer::default()
    }
}
