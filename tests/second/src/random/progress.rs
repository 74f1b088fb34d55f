//! Random operations of versions that follow one another, lists with repeats and
//! twins, and calls that deliver a list in turn.

use super::inputs::{append_frame, framed};
use super::messages::operation_of;
use super::twins::make_twin;
use super::Rng;
use crate::read::read;
use crate::replay::Step;

/// The first message drawn that is read.
pub fn until_read(rng: &mut Rng, draw: impl Fn(&mut Rng) -> Vec<u8>) -> Vec<u8> {
    loop {
        let m = draw(rng);
        if read(&m).is_ok() {
            return m;
        }
    }
}

/// Any of the six operations, of this very version, that is read.
pub fn well_formed_operation(rng: &mut Rng, version: u32) -> Vec<u8> {
    until_read(rng, |rng| operation_of(rng, version))
}

/// One of each version above `start` and up to `target`, rising.
pub fn operations_up_to(rng: &mut Rng, start: u32, target: u32) -> Vec<Vec<u8>> {
    let one = |below| well_formed_operation(rng, below + 1);
    (start..target).map(one).collect()
}

/// A list that is not empty, in any order, with so many of its messages again, or
/// as their twins.
pub fn mixed(rng: &mut Rng, mut list: Vec<Vec<u8>>, again: usize) -> Vec<Vec<u8>> {
    for _ in 0..again {
        let mut m = list[rng.below(list.len())].clone();
        if rng.one_in(2) {
            make_twin(&mut m);
        }
        list.push(m);
    }
    rng.shuffle(&mut list);
    list
}

/// The messages in turn, by deliveries and batches. One more stands where it
/// counts for nothing: in batches that are refused whole, and cut short.
pub fn calls(rng: &mut Rng, mut list: &[Vec<u8>], one_more: &[u8]) -> Vec<Step> {
    let mut frame = Vec::new();
    append_frame(&mut frame, one_more);
    let mut steps = Vec::new();
    while !list.is_empty() {
        let (part, rest) = list.split_at(rng.between(1, list.len().min(9)));
        list = rest;
        if rng.one_in(2) {
            steps.push(Step::Batch(frame.repeat(2), rng.below(2)));
        }
        if rng.one_in(2) {
            steps.extend(part.iter().cloned().map(Step::Delivery));
        } else {
            steps.push(batch(rng, part, &frame));
        }
    }
    steps
}

/// With records enough, and behind the messages a part of the frame, or nothing.
fn batch(rng: &mut Rng, list: &[Vec<u8>], frame: &[u8]) -> Step {
    let tail = &frame[..rng.below(frame.len())];
    let input = [&framed(list), tail].concat();
    Step::Batch(input, list.len() + rng.below(3))
}
