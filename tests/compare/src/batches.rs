//! Batches: each against the second implementation's and against its messages one by one; and deliveries and batches in turn against
//! the second implementation's replay.

use crate::bridge::{self, from_second, to_second, EMPTY};
use crate::buffer::{Buffer, Lent};
use crate::comparison::{hex, Call, Comparison, Difference, Verdict};
use crate::replicas::{compare_deliver, replica_hex, starting_replica};
use crate::traffic::deliveries;
use dp8::{Answer, Batch, Replica};
use second::framing;
use second::operation::Operation;
use second::random::{self, Rng};
use second::replay::{self, Step};

/// One batch for a valid replica.
pub fn compare_single(c: &mut Comparison, rng: &mut Rng) -> Verdict {
    let start = starting_replica(rng);
    let count = rng.between(0, 24);
    let list = deliveries(rng, &start, count);
    let input = random::batch_input(rng, &start, list);
    compare_shifted(c, rng, &mut from_second(&start), &input)
}

/// More messages than a count of 16 bits has: none has a byte but the last, which is applied.
pub fn compare_many(c: &mut Comparison) -> Verdict {
    let count = (1 << 16) + 1;
    let mut input = vec![0; 4 * (count - 1)];
    let last = random::add_player(&mut Rng::new(1), 1);
    random::append_frame(&mut input, &last);
    let (answer, records) = compare_batch(c, &mut EMPTY.clone(), &input, (count, 1))?;
    assert!(answer.count == count && records[count - 1].passed == 1);
    Ok(())
}

/// One batch of a few operations for a replica of any value.
pub fn compare_damaged(c: &mut Comparison, rng: &mut Rng, mut replica: Replica) -> Verdict {
    let count = rng.between(0, 3);
    let list = (0..count).map(|_| random::operation(rng, replica.version));
    let list = list.collect();
    let guide = to_second(&replica).unwrap_or_default();
    let input = random::batch_input(rng, &guide, list);
    compare_shifted(c, rng, &mut replica, &input)
}

/// At any place in memory, into a number of records around that of the messages.
fn compare_shifted(
    c: &mut Comparison,
    rng: &mut Rng,
    replica: &mut Replica,
    input: &[u8],
) -> Verdict {
    let whole = framing::messages(input).0.len();
    let (room, salt, shift) = (random::record_count(rng, whole), rng.byte(), rng.below(8));
    let shifted = [&[0xEE; 8][..shift], input].concat();
    compare_batch(c, replica, &shifted[shift..], (room, salt))?;
    Ok(())
}

/// Deliveries and batches in turn to one replica.
pub fn compare_run(c: &mut Comparison, rng: &mut Rng) -> Verdict {
    let mut start = starting_replica(rng);
    // The replay starts from a name table.
    start.pending.clear();
    let count = rng.between(2, 5);
    let steps = random::steps(rng, &start, count);
    let mut replica = from_second(&start);
    let (mut answers, mut refused) = (Vec::new(), false);
    for step in &steps {
        let before = replica;
        match step {
            Step::Delivery(m) => answers.push(compare_deliver(c, &mut replica, m)?),
            Step::Batch(input, room) => {
                let (batch, records) = compare_batch(c, &mut replica, input, (*room, rng.byte()))?;
                answers.extend(records);
                if refused && batch.count > 0 {
                    c.event("in turn: a batch refused whole, and a later one delivered");
                }
                refused |= batch.number == 29;
            }
        }
        if before.waiting().any(|p| p.version <= replica.version) {
            c.event("in turn: what waits from one call passes in the next");
        }
    }
    compare_whole_run(c, &start, &steps, (&answers, &Lent::new(replica)))
}

/// All answers of a run and the replica after it: against the same messages delivered one by one to another replica of the proved
/// library, and against the replay.
fn compare_whole_run(
    c: &mut Comparison,
    start: &second::replica::Replica,
    steps: &[Step],
    run: (&[Answer], &Lent),
) -> Verdict {
    let messages = replay::delivered(steps);
    let show = || format!("{steps:?} replica {}", replica_hex(&from_second(start)));
    let mut alone = Lent::new(from_second(start));
    let each = messages.iter().map(|m| alone.replica.deliver(m));
    let told: Vec<Answer> = each.collect();
    c.same((Call::OneByOne, 0), show, run, (&told, &alone))?;
    let outcome = replay::replay(&start.name_table(), &messages);
    let told: Vec<Answer> = outcome.answers.into_iter().map(bridge::answer).collect();
    let end = second::replica::Replica {
        pending: outcome.above_reach,
        ..second::replica::Replica::from_name_table(&outcome.name_table)
    };
    let end = Lent::new(from_second(&end));
    c.same((Call::Replay, 0), show, run, (&told, &end))
}

/// What a batch is given.
struct Given<'a> {
    replica: Replica,
    input: &'a [u8],
    room: usize,
    salt: u8,
}

impl Given<'_> {
    fn records(&self) -> Buffer<Answer> {
        Buffer::records(self.room, self.salt)
    }

    fn show(&self) -> String {
        let (room, salt) = (self.room, self.salt);
        let (messages, replica) = (hex(self.input), replica_hex(&self.replica));
        format!("room {room} salt {salt} messages {messages} replica {replica}")
    }
}

/// Compares one batch, its answer, every record and every word of the replica after it, and hands back what both sides answer, with the
/// records of the messages.
pub fn compare_batch(
    c: &mut Comparison,
    replica: &mut Replica,
    input: &[u8],
    (room, salt): (usize, u8),
) -> Result<(Batch, Vec<Answer>), Difference> {
    let given = Given {
        replica: *replica,
        input,
        room,
        salt,
    };
    let (mut own, mut other, mut lent) = (given.records(), given.records(), Lent::new(*replica));
    let answer = lent.replica.batch(input, own.lent());
    *replica = lent.replica;
    let (expected, next) = bridge::batched(&given.replica, input, other.lent());
    c.same(
        (Call::Batch, expected.number),
        || given.show(),
        ((answer, own.whole()), &lent),
        ((expected, other.whole()), &Lent::new(next)),
    )?;
    let told = other.lent()[..expected.count].to_vec();
    if expected.number == 0 {
        compare_one_by_one(c, &given, (own.whole(), &lent))?;
        note_delivered(c, &given, &told, replica);
    } else if own.whole() == given.records().whole() && replica.words() == given.replica.words() {
        note_refused(c, &given, expected.number);
    }
    Ok((expected, told))
}

/// The records and the replica after a batch, against those of the proved library's own deliveries.
fn compare_one_by_one(c: &mut Comparison, given: &Given, batch: (&[Answer], &Lent)) -> Verdict {
    let (mut records, mut alone) = (given.records(), Lent::new(given.replica));
    let (whole, _) = framing::messages(given.input);
    for (record, m) in records.lent().iter_mut().zip(whole) {
        *record = alone.replica.deliver(m);
    }
    let one_by_one = (records.whole(), &alone);
    c.same((Call::OneByOne, 0), || given.show(), batch, one_by_one)
}

/// Notes a batch that changed nothing.
fn note_refused(c: &mut Comparison, given: &Given, number: u32) {
    let count = framing::messages(given.input).0.len();
    match (number, count > given.room) {
        (28, false) => c.event("batch: refused 28 with records enough, and all as it was"),
        (28, true) => c.event("batch: refused 28 with too few records, and all as it was"),
        _ => c.event("batch: refused 29, and all as it was"),
    }
    if number == 28 && to_second(&given.replica).is_none() {
        c.event("batch: refused 28 of no value of the second implementation");
    }
    if number == 29 && count == given.room + 1 {
        c.event("batch: refused 29 for one record too few");
    }
    if number == 29 && given.room == 0 {
        c.event("batch: refused 29 with no record");
    }
}

fn note_delivered(c: &mut Comparison, given: &Given, told: &[Answer], after: &Replica) {
    let (whole, _) = framing::messages(given.input);
    c.batched_messages += whole.len() as u64;
    let tail = &given.input[whole.iter().map(|m| m.len() + 4).sum()..];
    match (whole.len(), given.room) {
        (0, 0) => c.event("batch: no message and no record"),
        (0, _) => c.event("batch: no message"),
        (count, room) if count < room => {
            c.event("batch: records beyond those of the messages stay")
        }
        _ if tail.is_empty() => c.event("batch: as many records as messages"),
        _ => c.event("batch: as many records as messages, and cut"),
    }
    note_tail(c, tail, after);
    note_lengths(c, &whole, told);
    note_answers(c, &whole, told, after);
}

fn note_tail(c: &mut Comparison, tail: &[u8], after: &Replica) {
    let Some((length, there)) = tail.split_first_chunk::<4>() else {
        return c.event(if tail.is_empty() {
            "batch: not cut"
        } else {
            "batch: cut in the length word"
        });
    };
    c.event("batch: cut in the message");
    if *length == [0xFF; 4] {
        c.event("batch: cut, and the length says 4,294,967,295");
    }
    if bridge::delivered(after, there).0.passed > 0 {
        c.event("batch: cut, and what is there would be applied");
    }
}

fn note_lengths(c: &mut Comparison, whole: &[&[u8]], told: &[Answer]) {
    for (m, answer) in whole.iter().zip(told) {
        match (m.len(), answer.passed) {
            (0, _) => c.event("batch: a message of no bytes"),
            (16_384, 1..) => c.event("batch: a message of 16,384 bytes is applied"),
            (16_385.., _) => c.event("batch: a message of more than 16,384 bytes"),
            _ => {}
        }
    }
}

fn note_answers(c: &mut Comparison, whole: &[&[u8]], told: &[Answer], after: &Replica) {
    for (m, answer) in whole.iter().zip(told) {
        c.record(answer.number);
        match (answer.number, answer.passed) {
            (0, 0) => c.typed_event(m[0], "batch: waits"),
            (0, _) => c.typed_event(m[0], "batch: applied"),
            (16, _) => c.typed_event(m[0], "batch: refused 16"),
            (17, _) => c.typed_event(m[0], "batch: refused 17"),
            _ => {}
        }
    }
    if told.iter().any(|answer| answer.passed == 32) {
        c.event("batch: 32 versions pass with a message");
    }
    let applied = |answer: &Answer| answer.passed > 0;
    note_names(c, whole, told, after);
    if told.len() > 1 && told.iter().all(applied) {
        c.event("batch: several messages, and all applied");
    }
    let refused = told.iter().position(|answer| answer.number != 0);
    if refused.is_some_and(|at| told[at..].iter().any(applied)) {
        c.event("batch: a message is refused, and a later one applied");
    }
    let passes = |m: &[u8]| version(m).is_some_and(|version| version <= after.version);
    let mut waiting = whole
        .iter()
        .zip(told)
        .filter(|pair| *pair.1 == Answer::default());
    if waiting.any(|(m, _)| passes(m)) {
        c.event("batch: a message waits, and passes within the batch");
    }
}

/// Names that a batch brings: of entries that are there after it, and of operations that wait then.
fn note_names(c: &mut Comparison, whole: &[&[u8]], told: &[Answer], after: &Replica) {
    for (m, answer) in whole.iter().zip(told) {
        let Some(operation) = Operation::in_message(m).filter(|o| !o.name().is_empty()) else {
            continue;
        };
        let mut used = after.used_entries().iter();
        let added =
            used.any(|e| e.version == operation.version() && e.name.used() == operation.name());
        match (answer.number, answer.passed) {
            (0, 0) if added => c.event("batch: a name waits, and is an entry's within the batch"),
            (0, 0) if operation.version() > after.version => c.event("batch: a name waits"),
            (0, _) if added => c.event("batch: a name is an entry's"),
            (16, _) => c.event("batch: refused 16 with a name"),
            (17, _) => c.event("batch: refused 17 with a name"),
            _ => {}
        }
    }
}

/// The version of an operation.
pub(crate) fn version(m: &[u8]) -> Option<u32> {
    Operation::in_message(m).map(|operation| operation.version())
}
