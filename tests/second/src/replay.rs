//! The replay (01 "The replay"): answers worked out again from the starting
//! name table and the accepted operations alone, from scratch for each message.
//! Shares with `replica` and `batch` only the plain data, the reader and the
//! framing.
//!
//! The starting table is taken as valid: 01 feeds only those, so 28 never comes.

use crate::framing;
use crate::name_table::{Entry, NameTable, GROUP, PLAYER};
use crate::operation::Operation;
use crate::read::read;
use crate::replica::Answer;

#[derive(Clone, Debug, PartialEq, Eq)]
pub struct Outcome {
    /// One for each message, in turn.
    pub answers: Vec<Answer>,
    /// The starting table with every operation up to the reach applied.
    pub name_table: NameTable,
    /// Accepted operations above the reach, rising by version.
    pub above_reach: Vec<Operation>,
}

/// A call that delivers.
#[derive(Clone, Debug, PartialEq, Eq)]
pub enum Step {
    Delivery(Vec<u8>),
    /// Messages in frames, into so many records (02 A2).
    Batch(Vec<u8>, usize),
}

/// What a run of calls delivers, in turn. A batch is its whole messages, or
/// none where there are more of them than records.
pub fn delivered<'a>(steps: &'a [Step]) -> Vec<&'a [u8]> {
    let of_step = |step: &'a Step| match step {
        Step::Delivery(m) => vec![&m[..]],
        Step::Batch(input, records) => {
            let (whole, _) = framing::messages(input);
            if whole.len() > *records {
                return Vec::new();
            }
            whole
        }
    };
    steps.iter().flat_map(of_step).collect()
}

pub fn replay<M: AsRef<[u8]>>(start: &NameTable, messages: &[M]) -> Outcome {
    let mut accepted = Vec::new();
    let mut answers = Vec::new();
    for m in messages {
        answers.push(answer(start, &mut accepted, m.as_ref()));
    }
    let reached = reach(start, &accepted);
    let mut above_reach: Vec<Operation> = accepted
        .iter()
        .filter(|op| u64::from(op.version()) > reached)
        .cloned()
        .collect();
    above_reach.sort_by_key(Operation::version);
    let (name_table, _) = roster(start, &accepted);
    Outcome {
        answers,
        name_table,
        above_reach,
    }
}

fn answer(start: &NameTable, accepted: &mut Vec<Operation>, m: &[u8]) -> Answer {
    let operation = match judge(start, accepted, m) {
        Ok(operation) => operation,
        Err(number) => return Answer::Refused(number),
    };
    let before = reach(start, accepted);
    accepted.push(operation);
    let after = reach(start, accepted);
    if after == before {
        return Answer::Waits;
    }
    let (_, noop_versions) = roster(start, accepted);
    let new_noops = noop_versions.iter().filter(|&&v| v > before).count();
    Answer::Applied {
        passed: (after - before) as u32,
        noops: new_noops as u32,
    }
}

fn judge(start: &NameTable, accepted: &[Operation], m: &[u8]) -> Result<Operation, u32> {
    let message = read(m)?;
    let Some(operation) = Operation::kept_of(m, &message) else {
        return Err(13);
    };
    let v = u64::from(operation.version());
    let reached = reach(start, accepted);
    if v <= reached {
        return Err(14);
    }
    if v > reached + 32 {
        return Err(15);
    }
    match of_version(accepted, v) {
        None => Ok(operation),
        Some(earlier) if *earlier == operation => Err(16),
        Some(_) => Err(17),
    }
}

fn of_version(accepted: &[Operation], version: u64) -> Option<&Operation> {
    accepted
        .iter()
        .find(|op| u64::from(op.version()) == version)
}

/// The largest version such that all above the start and up to it are accepted.
fn reach(start: &NameTable, accepted: &[Operation]) -> u64 {
    let mut reached = u64::from(start.version);
    while of_version(accepted, reached + 1).is_some() {
        reached += 1;
    }
    reached
}

/// The name table at the reach, and the versions of the no-ops on the way.
fn roster(start: &NameTable, accepted: &[Operation]) -> (NameTable, Vec<u64>) {
    let mut table = start.clone();
    let mut noop_versions = Vec::new();
    let first = u64::from(start.version) + 1;
    for version in first..=reach(start, accepted) {
        let Some(operation) = of_version(accepted, version) else {
            break;
        };
        match changed(&table, operation) {
            Some(next) => table = next,
            None => noop_versions.push(version),
        }
        table.version = operation.version();
    }
    (table, noop_versions)
}

/// The table after the operation, its version aside; `None` for a no-op.
fn changed(table: &NameTable, operation: &Operation) -> Option<NameTable> {
    match operation.clone() {
        Operation::AddEntry(new) => with_entry(table, new),
        Operation::DestroyEntry { kind, id, .. } => without_entry(table, (kind, id)),
        Operation::AddPlayerToGroup { group, player, .. } => with_member(table, (group, player)),
        Operation::DeletePlayerFromGroup { group, player, .. } => {
            without_member(table, (group, player))
        }
    }
}

fn with_entry(table: &NameTable, new: Entry) -> Option<NameTable> {
    let ids: Vec<u32> = table.entries.iter().map(|e| e.id).collect();
    if ids.contains(&new.id) || ids.len() == 64 {
        return None;
    }
    let mut next = table.clone();
    next.entries.push(new);
    next.entries.sort_by_key(|e| e.version);
    Some(next)
}

fn without_entry(table: &NameTable, leaving: (u32, u32)) -> Option<NameTable> {
    let (gone, kept): (Vec<Entry>, Vec<Entry>) = table
        .entries
        .iter()
        .cloned()
        .partition(|e| (e.kind, e.id) == leaving);
    if gone.is_empty() {
        return None;
    }
    let others = table.memberships.iter();
    let others = others.filter(|pair| (GROUP, pair.0) != leaving && (PLAYER, pair.1) != leaving);
    Some(NameTable {
        version: table.version,
        host: match leaving {
            (PLAYER, id) if id == table.host => 0,
            _ => table.host,
        },
        entries: kept,
        memberships: others.copied().collect(),
    })
}

fn with_member(table: &NameTable, pair: (u32, u32)) -> Option<NameTable> {
    let kind_of = |id: u32| table.entries.iter().find(|e| e.id == id).map(|e| e.kind);
    let absent = kind_of(pair.0) != Some(GROUP) || kind_of(pair.1) != Some(PLAYER);
    if absent || table.memberships.contains(&pair) || table.memberships.len() == 128 {
        return None;
    }
    let mut next = table.clone();
    next.memberships.push(pair);
    next.memberships.sort();
    Some(next)
}

fn without_member(table: &NameTable, pair: (u32, u32)) -> Option<NameTable> {
    let at = table.memberships.iter().position(|own| *own == pair)?;
    let mut next = table.clone();
    next.memberships.remove(at);
    Some(next)
}
