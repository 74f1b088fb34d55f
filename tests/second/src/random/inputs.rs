//! Random lists of messages, snapshots, and whole inputs of the listing.

use super::damage::{damage, noise};
use super::damaged_replicas::damaged_replica;
use super::messages::{broad_message, message, operation_of};
use super::names::change_unit;
use super::replicas::{name_table_bytes, nameless_bytes, replica};
use super::twins::make_twin;
use super::Rng;
use crate::listing::MAX_INPUT;
use crate::replica::Replica;
use crate::snapshot;

/// Messages for a replica that starts as `start`. A copy of it is kept up to
/// date for one purpose: to know which versions are near.
pub fn message_list(rng: &mut Rng, start: &Replica, count: usize) -> Vec<Vec<u8>> {
    let mut guide = start.clone();
    let mut list: Vec<Vec<u8>> = Vec::new();
    let mut fill_left = 0;
    while list.len() < count {
        if rng.one_in(60) {
            fill_left = rng.between(5, 60);
        }
        let m = if fill_left > 0 {
            fill_left -= 1;
            early_operation(rng, &guide)
        } else if !list.is_empty() && rng.one_in(10) {
            repeated(rng, &list)
        } else {
            message(rng, guide.version)
        };
        guide.deliver(&m);
        list.push(m);
    }
    list
}

/// The lowest version that may wait and does not: runs of these fill the
/// window; once it is full, mostly the next version, which empties it.
fn early_operation(rng: &mut Rng, guide: &Replica) -> Vec<u8> {
    let current = u64::from(guide.version);
    let taken = |v: u64| guide.pending.iter().any(|p| u64::from(p.version()) == v);
    let mut version = current + 2;
    while taken(version) {
        version += 1;
    }
    if version > current + 32 && !rng.one_in(4) {
        version = current + 1;
    }
    let version = version.min(u64::from(u32::MAX)) as u32;
    operation_of(rng, version)
}

/// A recent message again, unchanged, or with one word or one unit of its name
/// changed, or its twin.
fn repeated(rng: &mut Rng, list: &[Vec<u8>]) -> Vec<u8> {
    let back = rng.between(1, list.len().min(12));
    let mut m = list[list.len() - back].clone();
    if rng.one_in(3) && change_unit(rng, &mut m) {
        return m;
    }
    if rng.one_in(6) && make_twin(&mut m) {
        return m;
    }
    if rng.one_in(2) && m.len() >= 8 {
        // Any word after the type, kept or not kept, before the fields' pairs.
        let values = if m[0] == 0xD7 { 36 } else { 28 };
        let position = 4 * rng.between(1, m.len().min(values) / 4 - 1);
        m[position] ^= 1;
    }
    m
}

/// A well-formed snapshot of a valid replica, of either format.
pub fn snapshot(rng: &mut Rng) -> Vec<u8> {
    let saved = replica(rng);
    if rng.one_in(5) {
        nameless_bytes(&saved)
    } else {
        name_table_bytes(&saved)
    }
}

/// Well-formed half the time, else damaged in its values or its bytes.
pub fn any_snapshot(rng: &mut Rng) -> Vec<u8> {
    match rng.below(16) {
        0 => noise(rng, 60),
        1..=4 => name_table_bytes(&damaged_replica(rng)),
        5..=7 => {
            let mut bytes = snapshot(rng);
            damage(rng, &mut bytes);
            if bytes.len() >= 4 && !rng.one_in(4) {
                put_length(&mut bytes);
            }
            bytes
        }
        _ => snapshot(rng),
    }
}

/// Makes N agree with the length.
fn put_length(bytes: &mut [u8]) {
    let n = (bytes.len() - 4) as u32;
    bytes[..4].copy_from_slice(&n.to_be_bytes());
}

/// A whole input of the listing; now and then longer than 65,536 bytes.
pub fn framed_input(rng: &mut Rng) -> Vec<u8> {
    let mut input = if rng.one_in(3) {
        any_snapshot(rng)
    } else {
        snapshot(rng)
    };
    let start = snapshot::read(&input).unwrap_or_default();
    let count = rng.between(0, 60);
    for m in message_list(rng, &start, count) {
        append_frame(&mut input, &m);
    }
    if rng.one_in(12) {
        fill_to_limit(rng, &mut input, MAX_INPUT);
    }
    if rng.one_in(3) {
        cut_tail(rng, &mut input);
    }
    input
}

/// Appends a message after its length.
pub fn append_frame(input: &mut Vec<u8>, m: &[u8]) {
    input.extend((m.len() as u32).to_be_bytes());
    input.extend_from_slice(m);
}

/// Messages in frames, and nothing else.
pub fn framed(list: &[Vec<u8>]) -> Vec<u8> {
    let mut input = Vec::new();
    for m in list {
        append_frame(&mut input, m);
    }
    input
}

/// Frames up to a length around the limit, or past it.
pub fn fill_to_limit(rng: &mut Rng, input: &mut Vec<u8>, limit: usize) {
    let goal = limit + rng.between(0, 12) - 6;
    while input.len() + 4 < goal {
        let longest = goal - input.len() - 4;
        append_frame(input, &filler(rng, longest));
    }
    let next = rng.pick(&[0usize, 0, 20]);
    if next > 0 {
        append_frame(input, &vec![0; next]);
    }
}

/// Zeros, or a message of the greatest length that shows at great length.
fn filler(rng: &mut Rng, longest: usize) -> Vec<u8> {
    if longest > 17_000 && rng.one_in(2) {
        return broad_message(rng);
    }
    vec![0; longest.min(17_000)]
}

/// A tail too short for its length word or for its length, or other damage.
pub fn cut_tail(rng: &mut Rng, input: &mut Vec<u8>) {
    match rng.below(4) {
        0 => input.truncate(input.len().saturating_sub(rng.between(1, 30))),
        1 => input.extend(vec![0; rng.between(1, 3)]),
        2 => input.extend([0xFF; 7]),
        _ => damage(rng, input),
    }
}
