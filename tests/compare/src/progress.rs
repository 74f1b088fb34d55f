//! Nothing waits for good (02, A11): where an operation of every version up to a target, at most 32 above the replica's, is delivered, the
//! replica ends at the target or above it, whatever comes between. And wherever it ends, it lacks the next version: none was pending, and
//! each operation of it that came was too far ahead.

use crate::batches::{compare_batch, version};
use crate::bridge::from_second;
use crate::comparison::{Comparison, Difference, Verdict};
use crate::names::deliver;
use crate::replicas::starting_replica;
use crate::traffic::deliveries;
use dp8::Answer;
use second::operation::Operation;
use second::random::{self, calls, operations_up_to, well_formed_operation, Rng};
use second::replay::{delivered, Step};
use second::replica::Replica;
use std::collections::BTreeSet;

/// A target is at most so far above the start.
const REACH: u32 = 32;

/// Operations of all versions up to a target, or of all but one, or of all but those that are pending.
pub fn compare_progress(c: &mut Comparison, rng: &mut Rng) -> Verdict {
    let start = starting_replica(rng);
    if rng.one_in(8) {
        return compare_too_early(c, rng, &start);
    }
    let any = rng.between(1, REACH as usize) as u32;
    let target = start.version.saturating_add(rng.pick(&[any, any, REACH]));
    let waited = pending(&start);
    let mut free = above(&start, target);
    free.retain(|own| !waited.contains(own));
    if free.is_empty() {
        return Ok(()); // there is no version above the start's
    }
    let left_out = rng.pick(&free);
    let mut list = messages(rng, &start, target);
    match rng.below(4) {
        0 => list.retain(|m| version(m) != Some(left_out)),
        1 => list.retain(|m| !version(m).is_some_and(|own| waited.contains(&own))),
        _ => {}
    }
    let one_more = well_formed_operation(rng, left_out);
    let steps = calls(rng, &list, &one_more);
    let run = take(c, rng, &start, &steps)?;
    demand(c, (&start, target), &steps, &run);
    Ok(())
}

/// 33 above is not promised: the last operation comes first, and is too far ahead then.
fn compare_too_early(c: &mut Comparison, rng: &mut Rng, start: &Replica) -> Verdict {
    let Some(last) = start.version.checked_add(REACH + 1) else {
        return Ok(());
    };
    let mut list = operations_up_to(rng, start.version, last);
    list.reverse();
    let steps = calls(rng, &list, &list[0]);
    let run = take(c, rng, start, &steps)?;
    assert_eq!((run.told[0].number, run.end), (15, last - 1));
    demand_lacking(c, (start, last), &delivered(&steps), &run);
    c.event("progress: 33 above, and the last came too early");
    Ok(())
}

/// The versions above the start's and up to the target.
fn above(start: &Replica, target: u32) -> Vec<u32> {
    (start.version..target).map(|below| below + 1).collect()
}

fn pending(start: &Replica) -> BTreeSet<u32> {
    start.pending.iter().map(Operation::version).collect()
}

/// An operation of each version: the last one first, or in any order among other messages, some of them again or as their twins.
fn messages(rng: &mut Rng, start: &Replica, target: u32) -> Vec<Vec<u8>> {
    let mut list = operations_up_to(rng, start.version, target);
    if rng.one_in(4) {
        list.reverse();
        return list;
    }
    let count = rng.below(list.len() + 1);
    list.extend(deliveries(rng, start, count));
    let again = rng.below(6);
    random::mixed(rng, list, again)
}

#[derive(Default)]
struct Run {
    /// The answers to all that is delivered.
    told: Vec<Answer>,
    /// Whether there were deliveries, batches, and batches that are refused whole.
    single: bool,
    batched: bool,
    refused_whole: bool,
    /// The version that is reached.
    end: u32,
}

fn take(
    c: &mut Comparison,
    rng: &mut Rng,
    start: &Replica,
    steps: &[Step],
) -> Result<Run, Difference> {
    let (mut replica, mut run) = (from_second(start), Run::default());
    for step in steps {
        match step {
            Step::Delivery(m) => {
                run.told.push(deliver(c, &mut replica, m)?);
                run.single = true;
            }
            Step::Batch(input, room) => {
                let given = (*room, rng.byte());
                let (batch, records) = compare_batch(c, &mut replica, input, given)?;
                run.told.extend(records);
                run.batched |= batch.number == 0;
                run.refused_whole |= batch.number == 29;
            }
        }
    }
    run.end = replica.version;
    Ok(run)
}

/// Works out from what came and what was pending where the replica must end.
fn demand(c: &mut Comparison, (start, target): (&Replica, u32), steps: &[Step], run: &Run) {
    let (end, waited) = (run.end, pending(start));
    let came: BTreeSet<u32> = delivered(steps).into_iter().filter_map(version).collect();
    let lacking = |own: &u32| !came.contains(own) && !waited.contains(own);
    if let Some(next) = end.checked_add(1) {
        demand_lacking(c, (start, next), &delivered(steps), run);
    }
    let wanted = above(start, target);
    if wanted.iter().all(|own| came.contains(own)) {
        assert!(end >= target, "ends at {end}, target {target}");
        return note_all(c, (start, target), &delivered(steps), run);
    }
    match wanted.into_iter().find(lacking) {
        None => {
            assert!(end >= target, "ends at {end}, target {target}");
            c.event("progress: target reached through operations that were pending");
        }
        Some(left_out) => {
            assert_eq!(end, left_out - 1);
            c.event("progress: a version left out, and the replica stays below it");
            if run.refused_whole {
                c.event("progress: a batch refused whole counts for nothing");
            }
        }
    }
}

/// The next version was not pending, and each operation of it that came was too far ahead: none less than 32 above the start.
fn demand_lacking(
    c: &mut Comparison,
    (start, next): (&Replica, u32),
    messages: &[&[u8]],
    run: &Run,
) {
    assert!(!pending(start).contains(&next), "{next} was pending");
    assert_eq!(run.told.len(), messages.len());
    for (m, answer) in messages.iter().zip(&run.told) {
        if version(m) == Some(next) {
            assert!(next - start.version > REACH, "{next} came");
            assert_eq!(answer.number, 15);
            c.event("progress: what came of the next version was too far ahead");
        }
    }
}

/// Notes how the target was reached where all versions came.
fn note_all(c: &mut Comparison, (start, target): (&Replica, u32), messages: &[&[u8]], run: &Run) {
    if target - start.version == REACH {
        c.event(match version(messages[0]) == Some(target) {
            true => "progress: 32 versions, the last one first",
            false => "progress: 32 versions, in any order",
        });
    }
    if !start.pending.is_empty() {
        c.event("progress: from a replica with pending operations");
    }
    let refused = run.told.iter().position(|answer| answer.number != 0);
    if refused.is_some_and(|at| run.told[at..].iter().any(|answer| answer.passed > 0)) {
        c.event("progress: between refused messages");
    }
    if run.single && run.batched {
        c.event("progress: deliveries and batches mixed");
    }
    if run.end == u32::MAX {
        c.event("progress: up to the largest version");
    }
}
