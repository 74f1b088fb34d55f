//! What a call answers and hands back, as a list of named numbers and a run of bytes, so that every place of it is compared alike.

use crate::buffer::Lent;
use dp8::{Answer, Batch, Name, NextHost, Part, Reading, Replica, Written};
use second::random::Rng;

/// All of an outcome, place by place.
#[derive(Debug, Default, PartialEq, Eq)]
pub struct Places {
    numbers: Vec<(&'static str, u64)>,
    bytes: Vec<u8>,
}

impl Places {
    fn put(&mut self, name: &'static str, value: impl Into<u64>) {
        self.numbers.push((name, value.into()));
    }

    fn put_size(&mut self, name: &'static str, value: usize) {
        self.put(name, value as u64);
    }

    pub fn fill(&mut self, outcome: &impl Outcome) {
        self.numbers.clear();
        self.bytes.clear();
        outcome.places(self);
    }

    /// Makes one place wrong, any of them.
    pub fn flip_one(&mut self, rng: &mut Rng) {
        let place = rng.below(self.numbers.len() + self.bytes.len());
        match place.checked_sub(self.numbers.len()) {
            None => self.numbers[place].1 ^= 1 << rng.below(32),
            Some(at) => self.bytes[at] ^= 1 << rng.below(8),
        }
    }

    /// The first place that differs, in words.
    pub fn difference(&self, other: &Places) -> String {
        for (at, (own, others)) in self.numbers.iter().zip(&other.numbers).enumerate() {
            if own != others {
                let earlier = self.numbers[..at].iter().filter(|n| n.0 == own.0).count();
                return format!(
                    "{}[{earlier}]: proved {}, second {}",
                    own.0, own.1, others.1
                );
            }
        }
        for (at, (own, others)) in self.bytes.iter().zip(&other.bytes).enumerate() {
            if own != others {
                return format!("byte {at}: proved {own:02x}, second {others:02x}");
            }
        }
        let (own, others) = (self.bytes.len(), other.bytes.len());
        format!("not as many places: proved {own} bytes, second {others}")
    }
}

/// Something whose every place can be listed.
pub trait Outcome {
    fn places(&self, to: &mut Places);
}

impl Outcome for bool {
    fn places(&self, to: &mut Places) {
        to.put("answer", *self);
    }
}

/// A writer's answer and the whole buffer.
impl Outcome for (Written, &[u8]) {
    fn places(&self, to: &mut Places) {
        to.put("number", self.0.number);
        to.put_size("bytes", self.0.bytes);
        to.bytes.extend_from_slice(self.1);
    }
}

/// The listing's answer and the whole buffer.
impl Outcome for (usize, &[u8]) {
    fn places(&self, to: &mut Places) {
        to.put_size("bytes", self.0);
        to.bytes.extend_from_slice(self.1);
    }
}

/// What a program ends with, and all that it writes.
pub struct Ran<'a> {
    pub status: u64,
    pub errors: usize,
    pub text: &'a [u8],
}

impl Outcome for Ran<'_> {
    fn places(&self, to: &mut Places) {
        to.put("status", self.status);
        to.put_size("bytes on standard error", self.errors);
        to.bytes.extend_from_slice(self.text);
    }
}

impl Outcome for NextHost {
    fn places(&self, to: &mut Places) {
        to.put("number", self.number);
        to.put("id", self.id);
    }
}

impl Outcome for Answer {
    fn places(&self, to: &mut Places) {
        to.put("number", self.number);
        to.put("passed", self.passed);
        to.put("noops", self.noops);
    }
}

/// The answers to messages, in turn.
impl Outcome for &[Answer] {
    fn places(&self, to: &mut Places) {
        for record in *self {
            to.put("record.number", record.number);
            to.put("record.passed", record.passed);
            to.put("record.noops", record.noops);
        }
    }
}

/// A batch's answer and all records.
impl Outcome for (Batch, &[Answer]) {
    fn places(&self, to: &mut Places) {
        to.put("number", self.0.number);
        to.put_size("count", self.0.count);
        to.put("cut", self.0.cut);
        self.1.places(to);
    }
}

/// A number, as reading a snapshot answers it.
impl Outcome for u32 {
    fn places(&self, to: &mut Places) {
        to.put("number", *self);
    }
}

/// How many characters each of several names has.
impl Outcome for Vec<u32> {
    fn places(&self, to: &mut Places) {
        for count in self {
            to.put("characters", *count);
        }
    }
}

/// What a call answers, and every word of the replica that was lent to it, and of what is around it.
impl<T: Outcome> Outcome for (T, &Lent) {
    fn places(&self, to: &mut Places) {
        self.0.places(to);
        self.1.replica.places(to);
        for word in self.1.around() {
            to.put("around the replica", word);
        }
    }
}

impl Outcome for Replica {
    fn places(&self, to: &mut Places) {
        let start = to.numbers.len();
        to.put("version", self.version);
        to.put("host", self.host);
        to.put("entry_count", self.entry_count);
        to.put("membership_count", self.membership_count);
        for e in &self.entries {
            to.put("entry.kind", e.kind);
            to.put("entry.id", e.id);
            to.put("entry.owner", e.owner);
            to.put("entry.flags", e.flags);
            to.put("entry.version", e.version);
            to.put("entry.dnet_version", e.dnet_version);
            name(&e.name, ["entry.name.length", "entry.name.units"], to);
        }
        for m in &self.memberships {
            to.put("membership.group", m.group);
            to.put("membership.player", m.player);
        }
        for p in &self.pending {
            to.put("pending.act", p.act);
            to.put("pending.kind", p.kind);
            to.put("pending.id", p.id);
            to.put("pending.owner", p.owner);
            to.put("pending.flags", p.flags);
            to.put("pending.version", p.version);
            to.put("pending.dnet_version", p.dnet_version);
            name(&p.name, ["pending.name.length", "pending.name.units"], to);
        }
        let listed = to.numbers[start..].iter().map(|place| place.1);
        assert!(listed.eq(self.words().iter().map(|word| u64::from(*word))));
    }
}

/// Two units to a place, as the library sees them.
fn name(n: &Name, [length, units]: [&'static str; 2], to: &mut Places) {
    to.put(length, n.length);
    for pair in n.units.chunks(2) {
        to.put(units, u32::from(pair[0]) | u32::from(pair[1]) << 16);
    }
}

impl Outcome for Part {
    fn places(&self, to: &mut Places) {
        to.put("part.present", self.present);
        to.put_size("part.start", self.start);
        to.put_size("part.size", self.size);
        to.put_size("part.characters", self.characters);
    }
}

/// A reading, and the bytes of its fields one after the other.
impl Outcome for (Reading, Vec<u8>) {
    fn places(&self, to: &mut Places) {
        values(&self.0, to);
        for part in self.0.parts() {
            part.places(to);
        }
        to.bytes.extend_from_slice(&self.1);
    }
}

fn values(r: &Reading, to: &mut Places) {
    to.put("number", r.number);
    to.put("type", r.message_type);
    for value in r.words {
        to.put("values", value);
    }
    to.put("version_not_used", r.version_not_used);
}
