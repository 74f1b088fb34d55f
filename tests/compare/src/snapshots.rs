//! Reading snapshots, well-formed and damaged, into replicas of any value.

use crate::bridge::{self, from_second};
use crate::buffer::Lent;
use crate::characters::note_all;
use crate::comparison::{hex, Call, Comparison, Difference, Verdict};
use crate::named_snapshots::wrong_snapshot;
use crate::raw_replicas::noise;
use crate::replicas::compare_other_calls;
use dp8::Replica;
use second::random::{self, Rng};

/// Reads a snapshot on both sides; what was read is then written again.
pub fn compare_snapshot(c: &mut Comparison, rng: &mut Rng) -> Verdict {
    let bytes = if rng.one_in(2) {
        random::any_snapshot(rng)
    } else {
        damaged_snapshot(rng)
    };
    let start = if rng.one_in(2) {
        from_second(&random::any_replica(rng))
    } else {
        noise(rng)
    };
    let read = compare_read(c, start, &bytes)?;
    compare_other_calls(c, rng, &read)
}

/// Reads a snapshot that is wrong in a name, in a length, in an id or in its format.
pub fn compare_wrong_name(c: &mut Comparison, rng: &mut Rng) -> Verdict {
    let (event, _, bytes) = wrong_snapshot(rng);
    c.event(event);
    let read = compare_read(c, noise(rng), &bytes)?;
    compare_other_calls(c, rng, &read)
}

/// Compares one reading into a replica, its number and every word of the replica after it, and hands back what was read.
pub fn compare_read(
    c: &mut Comparison,
    start: Replica,
    bytes: &[u8],
) -> Result<Replica, Difference> {
    let mut lent = Lent::new(start);
    let number = lent.replica.read_snapshot(bytes);
    let (expected, read) = bridge::loaded(bytes);
    if expected == 0 && bytes[4] == 1 && read.entry_count > 0 {
        c.event("snapshot: entries read from format 1");
    }
    note_all(
        c,
        "snapshot",
        read.used_entries().iter().map(|e| e.name.used()),
    );
    c.same(
        (Call::SnapshotRead, expected),
        || hex(bytes),
        (number, &lent),
        (expected, &Lent::new(read)),
    )?;
    Ok(read)
}

/// One thing changed where a check looks.
pub fn damaged_snapshot(rng: &mut Rng) -> Vec<u8> {
    let mut bytes = random::snapshot(rng);
    match rng.below(10) {
        0 => wrong_length_word(rng, &mut bytes),
        1 => bytes[4] = rng.pick(&[0, 1, 2, 3, 255]),
        2..=3 => wrong_counts(rng, &mut bytes),
        4 => put(&mut bytes, 9, rng.pick(&[1, 2, 3, 100, 0x0100_0000])),
        5 => put(&mut bytes, 5, rng.pick(&[0, 1, 80, u32::MAX])),
        6 => bytes.truncate(rng.below(24)),
        7..=8 => bytes = wrong_snapshot(rng).2,
        _ => wrong_value(rng, &mut bytes),
    }
    bytes
}

fn wrong_length_word(rng: &mut Rng, bytes: &mut [u8]) {
    let n = bytes.len() as u32 - 4;
    let wrong = [
        0,
        10,
        11,
        n - 1,
        n + 1,
        n + 4,
        0xFFFF_FFFB,
        u32::MAX,
        n << 8,
        n + (1 << 16),
    ];
    put(bytes, 0, rng.pick(&wrong));
}

/// Counts that N may or may not fit: also 8 more memberships for 21 bytes the other way round, and counts over the limits.
fn wrong_counts(rng: &mut Rng, bytes: &mut Vec<u8>) {
    match rng.below(4) {
        0 => bytes[13] = rng.byte(),
        1 => bytes[14] = rng.byte(),
        2 => {
            (bytes[13], bytes[14]) = (
                rng.pick(&[64, 65, 66, 255]),
                rng.pick(&[0, 127, 128, 129, 255]),
            )
        }
        _ => (bytes[13], bytes[14]) = (bytes[13].wrapping_sub(8), bytes[14].wrapping_add(21)),
    }
    if rng.one_in(2) {
        let width = if bytes[4] == 1 { 21 } else { 22 };
        let body = 11 + width * usize::from(bytes[13]) + 8 * usize::from(bytes[14]);
        bytes.resize(body + 4, 0);
        put(bytes, 0, body as u32);
    }
}

/// A byte anywhere after the head.
fn wrong_value(rng: &mut Rng, bytes: &mut [u8]) {
    if bytes.len() > 15 {
        let at = rng.between(15, bytes.len() - 1);
        bytes[at] = rng.pick(&[0, 1, 2, 3, 4, 5, 62, 64, 80, 255]);
    }
}

fn put(bytes: &mut [u8], position: usize, value: u32) {
    bytes[position..position + 4].copy_from_slice(&value.to_be_bytes());
}
