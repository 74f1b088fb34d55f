//! Messages for a replica, of several kinds.

use crate::aimed;
use crate::bridge::from_second;
use crate::messages::any_message;
use second::random::{self, Rng};
use second::replica::Replica;

/// In stretches: random, damaged and repeated ones; ones that are aimed at what the replica holds; ones that are mostly refused.
pub fn deliveries(rng: &mut Rng, start: &Replica, count: usize) -> Vec<Vec<u8>> {
    let mut guide = start.clone();
    let mut list = Vec::new();
    while list.len() < count {
        let stretch = rng.between(10, 60).min(count - list.len());
        let more = match rng.below(4) {
            0 => (0..stretch.div_ceil(4)).map(|_| any_message(rng)).collect(),
            1 => aimed_stretch(rng, guide.clone(), stretch),
            _ => random::message_list(rng, &guide, stretch),
        };
        for m in &more {
            guide.deliver(m);
        }
        list.extend(more);
    }
    list
}

fn aimed_stretch(rng: &mut Rng, mut guide: Replica, count: usize) -> Vec<Vec<u8>> {
    let mut list = Vec::new();
    for _ in 0..count {
        let version = guide.version.saturating_add(1);
        let m = aimed::operation(rng, &from_second(&guide), version);
        guide.deliver(&m);
        list.push(m);
    }
    list
}
