//! Random batches: messages in frames, a tail behind them, so many records; and
//! runs of deliveries and batches.

use super::inputs::{append_frame, cut_tail, framed, message_list};
use super::messages::add_player;
use super::Rng;
use crate::framing;
use crate::replay::{delivered, Step};
use crate::replica::Replica;

/// Messages for a replica that starts as `start`, in frames; now and then with
/// one of a length at an edge among them, and a tail behind them.
pub fn batch_input(rng: &mut Rng, start: &Replica, mut list: Vec<Vec<u8>>) -> Vec<u8> {
    let next = version_after(start, &list);
    if rng.one_in(8) {
        let place = rng.between(0, list.len());
        list.insert(place, edge_message(rng, next));
    }
    let mut input = framed(&list);
    match rng.below(12) {
        0 => cut_tail(rng, &mut input),
        1..=4 => add_tail(rng, &mut input, next),
        _ => {}
    }
    input
}

/// The version that is next once the messages are delivered.
fn version_after(start: &Replica, list: &[Vec<u8>]) -> u32 {
    let mut guide = start.clone();
    for m in list {
        guide.deliver(m);
    }
    guide.version.saturating_add(1)
}

/// Of no bytes, of the greatest length that is read, or one byte longer; but
/// for its length it is an operation.
fn edge_message(rng: &mut Rng, version: u32) -> Vec<u8> {
    let mut m = add_player(rng, version);
    m.resize(rng.pick(&[0, 16_384, 16_385]), 0);
    m
}

/// A part of a length word, a part of a message, or all of an operation behind
/// a length that says more.
fn add_tail(rng: &mut Rng, input: &mut Vec<u8>, version: u32) {
    let m = add_player(rng, version);
    let length = m.len() as u32;
    match rng.below(3) {
        0 => input.extend(&length.to_be_bytes()[..rng.between(1, 3)]),
        1 => {
            append_frame(input, &m);
            input.truncate(input.len() - rng.between(1, m.len()));
        }
        _ => {
            let longer = [length + 1, 0x8000_0000, 0xFFFF_FFFC, u32::MAX];
            input.extend(rng.pick(&longer).to_be_bytes());
            input.extend(m);
        }
    }
}

/// As many records as messages, one less, one more, fewer or plenty.
pub fn record_count(rng: &mut Rng, messages: usize) -> usize {
    match rng.below(8) {
        0 => rng.between(0, messages),
        1 => messages.saturating_sub(1),
        2..=4 => messages,
        5 => messages + 1,
        _ => messages + rng.between(2, 9),
    }
}

/// So many calls that deliver, for a replica that starts as `start`.
pub fn steps(rng: &mut Rng, start: &Replica, count: usize) -> Vec<Step> {
    let mut guide = start.clone();
    let mut list = Vec::new();
    for _ in 0..count {
        let step = step(rng, &guide);
        for m in delivered(std::slice::from_ref(&step)) {
            guide.deliver(m);
        }
        list.push(step);
    }
    list
}

fn step(rng: &mut Rng, guide: &Replica) -> Step {
    if rng.one_in(3) {
        return Step::Delivery(message_list(rng, guide, 1).remove(0));
    }
    let count = rng.between(0, 9);
    let list = message_list(rng, guide, count);
    let input = batch_input(rng, guide, list);
    let whole = framing::messages(&input).0.len();
    Step::Batch(input, record_count(rng, whole))
}
