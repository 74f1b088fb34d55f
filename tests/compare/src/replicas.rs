//! Calls that a replica is lent to: validity, delivery, next host, names, writing the snapshot.

use crate::batches;
use crate::bridge::{self, from_second, to_second, EMPTY};
use crate::buffer::{room, Buffer, Lent};
use crate::characters::compare_names;
use crate::comparison::{hex, Call, Comparison, Difference, Verdict};
use crate::messages::{any_message, compare_read};
use crate::names::note_names;
use crate::raw_replicas::{damage_raw, noise};
use dp8::{Answer, Entry, NextHost, Replica, Written, SNAPSHOT};
use second::random::{self, Rng};
use std::hint::black_box;

/// The fresh replica, made where anything stood, and as the bindings hand it out.
pub fn compare_fresh(c: &mut Comparison) -> Verdict {
    let mut lent = Lent::new(noise(&mut Rng::new(1)));
    // SAFETY: a replica borrowed alone.
    unsafe { dp8::ffi::dp8_replica_fresh(&mut lent.replica) };
    let call = (Call::Fresh, 0);
    c.same(call, String::new, (0, &lent), (0, &Lent::new(EMPTY)))?;
    c.same(call, String::new, Replica::fresh(), EMPTY)
}

/// Messages read and delivered in turn to one replica.
pub fn compare_run(c: &mut Comparison, rng: &mut Rng, count: usize) -> Verdict {
    let start = starting_replica(rng);
    let mut replica = from_second(&start);
    for m in random::message_list(rng, &start, count) {
        let shift = rng.below(8);
        let shifted = [vec![0xEE; shift], m].concat();
        let m = &shifted[shift..];
        c.messages += 1;
        compare_read(c, m)?;
        compare_deliver(c, &mut replica, m)?;
        if rng.one_in(6) {
            compare_other_calls(c, rng, &replica)?;
        }
    }
    Ok(())
}

pub fn starting_replica(rng: &mut Rng) -> second::replica::Replica {
    match rng.below(8) {
        0 => second::replica::Replica::fresh(),
        1 => {
            let bytes = random::any_snapshot(rng);
            second::snapshot::read(&bytes).unwrap_or_default()
        }
        _ => random::replica(rng),
    }
}

/// A valid one so far from the largest version that every place of a pending operation has a version.
pub fn early_replica(rng: &mut Rng) -> Replica {
    loop {
        let valid = random::replica(rng);
        if valid.version <= u32::MAX - 40 {
            return from_second(&valid);
        }
    }
}

/// Messages that are mostly refused, read, and each delivered to a copy of the same replica.
pub fn compare_single(c: &mut Comparison, rng: &mut Rng) -> Verdict {
    let replica = from_second(&starting_replica(rng));
    for _ in 0..10 {
        let m = any_message(rng);
        c.messages += 1;
        compare_read(c, &m)?;
        compare_deliver(c, &mut replica.clone(), &m)?;
    }
    Ok(())
}

/// Replicas that are damaged as lists, or in places that only C has.
pub fn compare_damaged(c: &mut Comparison, rng: &mut Rng) -> Verdict {
    let mut replica = match rng.below(4) {
        0 => from_second(&random::damaged_replica(rng)),
        1 => from_second(&random::any_replica(rng)),
        _ => {
            let valid = random::replica(rng);
            damage_raw(rng, from_second(&valid))
        }
    };
    if rng.one_in(20) {
        replica = damage_raw(rng, replica);
    }
    if to_second(&replica).is_none() {
        c.event("replica: of no value of the second implementation");
    }
    compare_other_calls(c, rng, &replica)?;
    if rng.one_in(3) {
        batches::compare_damaged(c, rng, replica)?;
    }
    let m = if rng.one_in(4) {
        any_message(rng)
    } else {
        random::operation(rng, replica.version)
    };
    c.messages += 1;
    compare_read(c, &m)?;
    compare_deliver(c, &mut replica, &m)?;
    Ok(())
}

/// Compares one delivery, its answer and every word of the replica after it, and hands back what both sides answer.
pub fn compare_deliver(
    c: &mut Comparison,
    replica: &mut Replica,
    m: &[u8],
) -> Result<Answer, Difference> {
    let before = *replica;
    let mut lent = Lent::new(before);
    let answer = lent.replica.deliver(m);
    *replica = lent.replica;
    let (expected, next) = bridge::delivered(&before, m);
    match (expected.number, expected.passed) {
        (0, 0) => c.event("delivery: waits"),
        (0, _) => c.event("delivery: applied"),
        _ => {}
    }
    if expected.passed == 32 {
        c.event("delivery: 32 versions passed");
    }
    if expected.passed > 1 && next.pending.iter().any(|p| p.act != 0) {
        c.event("delivery: several versions passed, up to a gap");
    }
    if expected.number == 14 && before.version == u32::MAX {
        c.event("delivery: refused 14 at the largest version");
    }
    if expected.noops > 0 {
        c.event("delivery: a no-op among those passed");
    }
    if expected.number == 0 {
        note_names(c, &before, &next, m);
    }
    note_type(c, &before, m, expected);
    let input = || format!("message {} replica {}", hex(m), replica_hex(&before));
    c.same(
        (Call::Deliver, expected.number),
        input,
        (answer, &lent),
        (expected, &Lent::new(next)),
    )?;
    if expected.number != 0 && replica.words() == before.words() {
        c.event("delivery: refused, and every word as it was");
    }
    Ok(expected)
}

/// Notes what a message of a type that is read is answered with.
fn note_type(c: &mut Comparison, before: &Replica, m: &[u8], answer: Answer) {
    let event = match (answer.number, answer.passed) {
        (0, 0) => "delivery: waits",
        (0, _) => "delivery: applied",
        (13, _) => "delivery: refused 13",
        (14, _) => "delivery: refused 14",
        (15, _) => "delivery: refused 15",
        (16, _) => "delivery: refused 16",
        (17, _) => "delivery: refused 17",
        _ => return,
    };
    c.typed_event(m[0], event);
    let mut twin = m.to_vec();
    if answer.number == 17
        && random::make_twin(&mut twin)
        && bridge::delivered(before, &twin).0.number == 16
    {
        c.typed_event(m[0], "delivery: refused 17, and its twin waits");
    }
}

/// Validity, next host, names and snapshot, which leave the replica as it is.
pub fn compare_other_calls(c: &mut Comparison, rng: &mut Rng, replica: &Replica) -> Verdict {
    let (lent, same) = (Lent::new(*replica), Lent::new(*replica));
    let lent = black_box(&lent);
    let valid = bridge::is_valid(replica);
    let number = if valid { 0 } else { 28 };
    let input = || replica_hex(replica);
    let answer = lent.replica.is_valid();
    c.same(
        (Call::IsValid, number),
        input,
        (answer, black_box(lent)),
        (valid, &same),
    )?;
    let id = to_second(replica).map_or(0, |own| own.next_host().unwrap_or(0));
    if valid {
        c.event(if id == 0 {
            "next host: none"
        } else {
            "next host: some"
        });
    }
    let answer = lent.replica.next_host();
    c.same(
        (Call::NextHost, number),
        input,
        (answer, black_box(lent)),
        (NextHost { number, id }, &same),
    )?;
    compare_names(c, replica)?;
    compare_snapshot_write(c, rng, replica)
}

fn compare_snapshot_write(c: &mut Comparison, rng: &mut Rng, replica: &Replica) -> Verdict {
    let entry_bytes = |e: &Entry| 21 + 1 + 2 * e.name.used().len();
    let entries: usize = replica.used_entries().iter().map(entry_bytes).sum();
    let needed = 15 + entries + 8 * replica.used_memberships().len();
    let (room, salt) = (room(rng, needed), rng.byte());
    let (mut proved, mut other) = (Buffer::new(room, salt), Buffer::new(room, salt));
    let (lent, same) = (Lent::new(*replica), Lent::new(*replica));
    let lent = black_box(&lent);
    let answer = lent.replica.write_snapshot(proved.lent());
    let expected = match to_second(replica) {
        None => Written {
            number: 28,
            bytes: 0,
        },
        Some(own) => {
            let written = second::snapshot::write(&own, other.lent());
            Written {
                number: written.number,
                bytes: written.written,
            }
        }
    };
    if expected.bytes == SNAPSHOT {
        c.event("snapshot: longest there is");
    }
    if expected.bytes > 0 {
        assert_eq!(other.lent()[4], 2, "only format 2 is written");
        let mut named = replica.used_entries().iter();
        if named.any(|e| e.name.length > 0) {
            c.event("snapshot: written with a name");
        }
    }
    match expected.number {
        0 if room == needed => c.event("snapshot: room exactly enough"),
        27 if room + 1 == needed => c.event("snapshot: one byte short"),
        _ => {}
    }
    let input = || format!("room {room} salt {salt} replica {}", replica_hex(replica));
    let call = (Call::SnapshotWrite, expected.number);
    c.same(
        call,
        input,
        ((answer, proved.whole()), black_box(lent)),
        ((expected, other.whole()), &same),
    )
}

/// The replica's bytes as they stand in C's struct, little-endian.
pub fn replica_hex(replica: &Replica) -> String {
    let bytes = replica.words().iter().flat_map(|word| word.to_le_bytes());
    hex(&bytes.collect::<Vec<u8>>())
}
