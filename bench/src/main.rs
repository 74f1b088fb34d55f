//! bench [count]
//!
//! Times the proved library against the second implementation and prints a Markdown table; with `count` it counts instructions instead
//! (which wants valgrind).
//!
//! Both sides do the same work on the same inputs, in turn; before a row is timed, both must answer the same. The proved library is
//! called through its C interface; both change the replica where it stands.

mod counting;
mod inputs;
mod messages;
mod timing;

use compare::bridge::{answer, batched, delivered, from_second};
use compare::bridge::{is_valid, loaded, EMPTY};
use inputs::{add_named, add_player, create_group, delete_from_group, destroy_group};
use inputs::{named, replica, waiting, Add};
use second::replica::{Answer, Replica};
use std::hint::black_box;
use timing::{Pure, Row, Side, Timed};

/// What is done with each row.
enum Bench {
    Time(Vec<Row>),
    /// Each row's name, and how many calls of it are counted.
    Name(Vec<(String, usize)>),
    /// So many calls of one side of one row, to be counted from outside.
    Call(String, bool, usize),
}

impl Bench {
    /// Whether nothing is to be done with a row, and so nothing to be made ready for it, but to take its name.
    fn skips(&mut self, name: &str) -> bool {
        self.skips_counting(name, counting::CALLS)
    }

    /// The same with another number of calls to be counted.
    fn skips_counting(&mut self, name: &str, calls: usize) -> bool {
        match self {
            Bench::Time(_) => false,
            Bench::Name(names) => {
                names.push((name.to_string(), calls));
                true
            }
            Bench::Call(wanted, ..) => wanted != name,
        }
    }

    fn row(&mut self, name: &str, proved: &dyn Timed, second: &dyn Timed) {
        match self {
            Bench::Time(rows) => rows.push(timing::time(name, proved, second)),
            Bench::Name(_) => {}
            Bench::Call(_, is_proved, calls) => {
                let side = if *is_proved { proved } else { second };
                side.calls(*calls, counting::PREPARED);
            }
        }
    }
}

fn main() {
    let words: Vec<String> = std::env::args().skip(1).collect();
    let words: Vec<&str> = words.iter().map(String::as_str).collect();
    let mut b = match words[..] {
        [] => Bench::Time(Vec::new()),
        ["count"] => Bench::Name(Vec::new()),
        [counting::CALLS_WORD, name, side, calls] => Bench::Call(
            name.to_string(),
            side == counting::SIDES[0],
            calls.parse().expect("a number of calls"),
        ),
        _ => panic!("bench [count]"),
    };
    rows(&mut b);
    match b {
        Bench::Time(rows) => timing::print(&rows),
        Bench::Name(names) => counting::print(&names),
        Bench::Call(..) => {}
    }
}

fn rows(b: &mut Bench) {
    messages::messages(b);
    validity(b);
    deliveries(b);
    batches(b);
    snapshots(b);
    // Some thousand deliveries: under valgrind it would take minutes, and tell nothing that those above do not.
    if matches!(b, Bench::Time(_)) {
        let start = replica(32, 64);
        listing(b, "listing of 65,536 bytes", &start, add_player);
        let name = "listing of 65,536 bytes, with names";
        listing(b, name, &named(start), add_named);
    }
}

fn validity(b: &mut Bench) {
    valid(b, "valid: 8 entries, 7 memberships", &replica(8, 7));
    let full = replica(64, 128);
    valid(b, "valid: 64 entries, 128 memberships", &full);
    next_host(b, "next host: 64 entries, 128 memberships", &full);
    let name = "valid: 8 named entries, 7 memberships";
    valid(b, name, &named(replica(8, 7)));
    let name = "valid: 64 named entries, 128 memberships";
    valid(b, name, &named(full));
}

/// A new player, in its turn, early and late, and in its turn with 31 operations that wait for it.
fn deliveries(b: &mut Bench) {
    let next = add_player(900, 101);
    for (entries, memberships) in [(8, 7), (63, 128)] {
        let start = replica(entries, memberships);
        let size = format!("{entries} entries, {memberships} memberships");
        deliver(b, &format!("deliver, applied: {size}"), &start, &next);
        let early = add_player(900, 105);
        deliver(b, &format!("deliver, waits: {size}"), &start, &early);
        let late = add_player(900, 100);
        deliver(b, &format!("deliver, refused 14: {size}"), &start, &late);
    }
    for (entries, memberships) in [(8, 7), (56, 128)] {
        let start = waiting(replica(entries, memberships));
        let size = format!("{entries} entries, {memberships} memberships");
        let name = format!("deliver, 32 versions pass: {size}");
        deliver(b, &name, &start, &next);
    }
    named_deliveries(b);
    group_deliveries(b);
}

/// A group comes, loses a member, and goes with the members that it has.
fn group_deliveries(b: &mut Bench) {
    for (entries, memberships) in [(8, 7), (63, 128)] {
        let start = replica(entries, memberships);
        let size = format!("{entries} entries, {memberships} memberships");
        let (comes, goes) = (create_group(900, 101), destroy_group(8, 101));
        deliver(
            b,
            &format!("deliver, group created: {size}"),
            &start,
            &comes,
        );
        let leaves = delete_from_group(8, 1, 101);
        deliver(b, &format!("deliver, group left: {size}"), &start, &leaves);
        let name = format!("deliver, group destroyed: {size}");
        deliver(b, &name, &start, &goes);
    }
}

/// The same with names; and one that waits sent again, for which the names are compared.
fn named_deliveries(b: &mut Bench) {
    let next = add_named(900, 101);
    for (entries, memberships) in [(8, 7), (63, 128)] {
        let start = named(replica(entries, memberships));
        let size = format!("{entries} named entries, {memberships} memberships");
        deliver(b, &format!("deliver, applied: {size}"), &start, &next);
        let early = add_named(900, 105);
        deliver(b, &format!("deliver, waits: {size}"), &start, &early);
        let mut waits = start;
        waits.deliver(&early);
        deliver(b, &format!("deliver, refused 16: {size}"), &waits, &early);
    }
    let start = named(waiting(replica(56, 128)));
    let name = "deliver, 32 versions pass: 56 named entries, 128 memberships";
    deliver(b, name, &start, &next);
}

/// The same messages by one call and one by one, all of them applied and all refused.
fn batches(b: &mut Bench) {
    for (entries, memberships) in [(8, 7), (64, 128)] {
        let start = replica(entries, memberships);
        let size = format!("{entries} entries, {memberships} memberships");
        let applied = inputs::leaving_and_coming(&start, add_player);
        batch(b, &format!("applied: {size}"), &start, (&applied, EACH));
        let (refused, each) = (inputs::late(&start), Answer::Refused(14));
        batch(b, &format!("refused 14: {size}"), &start, (&refused, each));
    }
    let start = named(replica(64, 128));
    let applied = inputs::leaving_and_coming(&start, add_named);
    let what = "applied: 64 named entries, 128 memberships";
    batch(b, what, &start, (&applied, EACH));
}

/// The answer to each message of a batch that is applied.
const EACH: Answer = Answer::Applied {
    passed: 1,
    noops: 0,
};

fn snapshots(b: &mut Bench) {
    for (entries, memberships) in [(8, 7), (64, 128)] {
        let start = replica(entries, memberships);
        let size = format!("{entries} entries, {memberships} memberships");
        snapshot_read(
            b,
            &format!("snapshot read: {size}"),
            &snapshot_bytes(&start),
        );
        snapshot_write(b, &format!("snapshot write: {size}"), &start);
        let start = named(start);
        let size = format!("{entries} named entries, {memberships} memberships");
        snapshot_read(
            b,
            &format!("snapshot read: {size}"),
            &snapshot_bytes(&start),
        );
        snapshot_write(b, &format!("snapshot write: {size}"), &start);
    }
    let old = second::random::nameless_bytes(&replica(64, 128));
    let name = "snapshot read: 64 entries, 128 memberships, format 1";
    snapshot_read(b, name, &old);
}

fn valid(b: &mut Bench, name: &str, start: &Replica) {
    if b.skips(name) {
        return;
    }
    let own = from_second(start);
    assert!(own.is_valid() && is_valid(&own));
    let proved = || {
        black_box(black_box(&own).is_valid());
    };
    let second = || {
        black_box(black_box(start).is_valid());
    };
    b.row(name, &Pure { call: proved }, &Pure { call: second });
}

fn next_host(b: &mut Bench, name: &str, start: &Replica) {
    if b.skips(name) {
        return;
    }
    let own = from_second(start);
    let answer = own.next_host();
    assert_eq!((answer.number, Ok(answer.id)), (0, start.next_host()));
    let proved = || {
        black_box(black_box(&own).next_host());
    };
    let second = || {
        black_box(black_box(start).next_host()).ok();
    };
    b.row(name, &Pure { call: proved }, &Pure { call: second });
}

fn deliver(b: &mut Bench, name: &str, start: &Replica, m: &[u8]) {
    if b.skips(name) {
        return;
    }
    let own = from_second(start);
    let mut next = own;
    assert_eq!((next.deliver(m), next), delivered(&own, m));
    let proved = Side {
        prepare: || own,
        call: |replica: &mut dp8::Replica| {
            black_box(replica.deliver(black_box(m)));
        },
    };
    let second = Side {
        prepare: || start.clone(),
        call: |replica: &mut Replica| {
            black_box(replica.deliver(black_box(m)));
        },
    };
    b.row(name, &proved, &second);
}

const RECORDS: usize = inputs::BATCH as usize;

/// Two rows: a batch, and its messages one by one. Each of them is answered so.
fn batch(b: &mut Bench, what: &str, start: &Replica, (list, each): (&[Vec<u8>], Answer)) {
    let name = format!("batch of {RECORDS} messages, {what}");
    if !b.skips_counting(&name, counting::FEW_CALLS) {
        by_one_call(b, &name, start, (&inputs::framed(list), each));
    }
    let name = format!("{RECORDS} messages one by one, {what}");
    if !b.skips_counting(&name, counting::FEW_CALLS) {
        one_by_one(b, &name, start, (list, each));
    }
}

fn by_one_call(b: &mut Bench, name: &str, start: &Replica, (messages, each): (&[u8], Answer)) {
    let own = from_second(start);
    let empty = [dp8::Answer::default(); RECORDS];
    let (mut next, mut records, mut expected) = (own, empty, empty);
    let outcome = (next.batch(messages, &mut records), next);
    assert_eq!(outcome, batched(&own, messages, &mut expected));
    assert_eq!((records, expected), ([answer(each); RECORDS], records));
    let proved = Side {
        prepare: || (own, empty),
        call: |(replica, records): &mut (dp8::Replica, [dp8::Answer; RECORDS])| {
            black_box(replica.batch(black_box(messages), records));
        },
    };
    let second = Side {
        prepare: || (start.clone(), [Answer::Waits; RECORDS]),
        call: |(replica, records): &mut (Replica, [Answer; RECORDS])| {
            black_box(replica.batch(black_box(messages), records)).ok();
        },
    };
    b.row(name, &proved, &second);
}

fn one_by_one(b: &mut Bench, name: &str, start: &Replica, (list, each): (&[Vec<u8>], Answer)) {
    let own = from_second(start);
    let (mut next, mut other) = (own, start.clone());
    for m in list {
        assert_eq!((next.deliver(m), other.deliver(m)), (answer(each), each));
    }
    let proved = Side {
        prepare: || own,
        call: |replica: &mut dp8::Replica| {
            for m in list {
                black_box(replica.deliver(black_box(m)));
            }
        },
    };
    let second = Side {
        prepare: || start.clone(),
        call: |replica: &mut Replica| {
            for m in list {
                black_box(replica.deliver(black_box(m)));
            }
        },
    };
    b.row(name, &proved, &second);
}

fn snapshot_bytes(start: &Replica) -> Vec<u8> {
    let mut buffer = [0; dp8::SNAPSHOT];
    let written = second::snapshot::write(start, &mut buffer).written;
    buffer[..written].to_vec()
}

fn snapshot_read(b: &mut Bench, name: &str, bytes: &[u8]) {
    if b.skips(name) {
        return;
    }
    let mut read = EMPTY;
    assert_eq!((read.read_snapshot(bytes), read), loaded(bytes));
    let proved = Side {
        prepare: || read,
        call: |replica: &mut dp8::Replica| {
            black_box(replica.read_snapshot(black_box(bytes)));
        },
    };
    let second = || {
        black_box(second::snapshot::read(black_box(bytes))).ok();
    };
    b.row(name, &proved, &Pure { call: second });
}

fn snapshot_write(b: &mut Bench, name: &str, start: &Replica) {
    if b.skips(name) {
        return;
    }
    let own = from_second(start);
    let bytes = snapshot_bytes(start);
    let mut buffer = [0; dp8::SNAPSHOT];
    let written = own.write_snapshot(&mut buffer);
    assert_eq!(&buffer[..written.bytes], &bytes[..]);
    let proved = Side {
        prepare: || [0; dp8::SNAPSHOT],
        call: |buffer: &mut [u8; dp8::SNAPSHOT]| {
            black_box(black_box(&own).write_snapshot(buffer));
        },
    };
    let second = Side {
        prepare: || [0; dp8::SNAPSHOT],
        call: |buffer: &mut [u8; dp8::SNAPSHOT]| {
            black_box(second::snapshot::write(black_box(start), buffer));
        },
    };
    b.row(name, &proved, &second);
}

fn listing(b: &mut Bench, name: &str, start: &Replica, add: Add) {
    let input = inputs::listing_input(start, add);
    let text = second::listing::listing(&input, false);
    let mut buffer = [0; dp8::LISTING];
    let length = dp8::listing(&input, &mut buffer);
    assert_eq!(&buffer[..length], &text[..]);
    let proved = Side {
        prepare: || [0; dp8::LISTING],
        call: |buffer: &mut [u8; dp8::LISTING]| {
            black_box(dp8::listing(black_box(&input), buffer));
        },
    };
    let second = || {
        black_box(second::listing::listing(black_box(&input), false));
    };
    b.row(name, &proved, &Pure { call: second });
}
