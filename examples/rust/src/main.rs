//! Reads a snapshot, delivers two messages, and shows who hosts next, the entries and the snapshot after them (paper 01, "The listing",
//! with names and how many characters they have: paper 02, A3 and A9); lets a group come and go (A5); delivers the same two as one batch
//! (A2). Then reads what was written for player 400, and an older seat's connect info, whose name has an offset and no size (A1).

use dp8::{AddPlayer, AddToGroup, Answer, EntryFields, Replica, Written};
use dp8::{CreateGroup, DeleteFromGroup, DestroyGroup};

/// Version 5, host 100; player 100 (version 1) named Ann, player 200 (version 3) named Bob, group 300 (version 4) without a name; player
/// 200 is in group 300. Behind each entry stand the count of its name's bytes and the name, the high byte of each unit first.
#[rustfmt::skip]
const SAVED: [u8; 101] = [
    0, 0, 0, 97, 2, 0, 0, 0, 5, 0, 0, 0, 100, 3, 1,
    1, 0, 0, 0, 100, 0, 0, 0, 0, 0, 0, 0, 0, 0, 0, 0, 1, 0, 0, 0, 7, 6, 0, b'A', 0, b'n', 0, b'n',
    1, 0, 0, 0, 200, 0, 0, 0, 0, 0, 0, 0, 0, 0, 0, 0, 3, 0, 0, 0, 7, 6, 0, b'B', 0, b'o', 0, b'b',
    2, 0, 0, 1, 44, 0, 0, 0, 0, 0, 0, 0, 0, 0, 0, 0, 4, 0, 0, 0, 7, 0,
    0, 0, 1, 44, 0, 0, 0, 200,
];

/// The host leaves, version 7: it comes early and waits.
const HOST_LEAVES: [u8; 20] = [
    0xD1, 0, 0, 0, 100, 0, 0, 0, 7, 0, 0, 0, 0, 0, 0, 0, 1, 0, 0, 0,
];

fn show(what: &str, answer: Answer) {
    match (answer.number, answer.passed) {
        (0, 0) => println!("{what}: waits"),
        (0, passed) => println!(
            "{what}: applied, {passed} versions passed, {} without effect",
            answer.noops
        ),
        (number, _) => println!("{what}: refused {number}"),
    }
}

fn show_entries(replica: &Replica) {
    for entry in replica.used_entries() {
        let kind = if entry.kind == dp8::PLAYER {
            "player"
        } else {
            "group"
        };
        let (id, name) = (entry.id, entry.name);
        println!(
            "{kind} {id}, name \"{name}\" of {} units, {} characters",
            name.length,
            name.characters()
        );
    }
}

/// A name as a message has it, with its terminator.
fn wide(name: &str) -> Vec<u8> {
    let units = name.encode_utf16().chain([0]);
    units.flat_map(u16::to_le_bytes).collect()
}

/// Delivers what a writer writes; of a refused one that is no bytes, and refused with 2.
fn deliver(replica: &mut Replica, what: &str, write: impl Fn(&mut [u8]) -> Written) {
    let mut message = [0; 128];
    let written = write(&mut message);
    show(what, replica.deliver(&message[..written.bytes]));
    println!(
        "  {} entries, {} memberships",
        replica.entry_count, replica.membership_count
    );
}

/// From version 7 on: group 500 comes, two players join it, one of them leaves it, and it goes with the other's membership.
fn show_group(replica: &mut Replica) {
    let (group, requesting, context) = (500, 200, 0);
    let values = CreateGroup {
        requesting,
        dpnid: group,
        owner: 200,
        version: 8,
        dnet_version: 7,
        ..CreateGroup::default()
    };
    let name = wide("Red");
    let fields = EntryFields {
        name: Some(&name),
        ..EntryFields::default()
    };
    deliver(replica, "group 500 comes", |buffer| {
        dp8::write_create_group(buffer, values, fields)
    });
    show_entries(replica);
    for (player, version) in [(200, 9), (400, 10)] {
        let values = AddToGroup {
            group,
            player,
            version,
            requesting,
            context,
        };
        deliver(replica, &format!("player {player} joins it"), |buffer| {
            dp8::write_add_to_group(buffer, values)
        });
    }
    let values = DeleteFromGroup {
        group,
        player: 200,
        version: 11,
        requesting,
        context,
    };
    deliver(replica, "player 200 leaves it", |buffer| {
        dp8::write_delete_from_group(buffer, values)
    });
    let values = DestroyGroup {
        group,
        version: 12,
        requesting,
        context,
    };
    deliver(replica, "group 500 goes", |buffer| {
        dp8::write_destroy_group(buffer, values)
    });
}

/// Delivers the messages as one batch into so many records, all nines before it, and shows all that is in them.
fn show_batch(messages: &[u8], room: usize) {
    let nines = Answer {
        number: 9,
        passed: 9,
        noops: 9,
    };
    let mut records = vec![nines; room];
    let batch = saved().batch(messages, &mut records);
    let cut = if batch.cut { "cut" } else { "not cut" };
    print!(
        "batch: number {}, count {}, {cut}; records",
        batch.number, batch.count
    );
    for r in records {
        print!(" {{{}, {}, {}}}", r.number, r.passed, r.noops);
    }
    println!();
}

/// The host leaves and a player joins, then two bytes of a length word. The last record stays; with one record nothing is delivered.
fn show_batches(joining: &[u8]) {
    let mut messages = Vec::new();
    for m in [&HOST_LEAVES, joining] {
        messages.extend((m.len() as u32).to_be_bytes());
        messages.extend(m);
    }
    messages.extend([0, 0]);
    show_batch(&messages, 3);
    show_batch(&messages, 1);
}

/// The name in the message that holds it: its bytes, terminator included, and its characters.
fn show_name(message: &[u8]) {
    let name = dp8::read(message).name;
    println!(
        "name at {} of {} bytes, {} characters",
        name.start, name.size, name.characters
    );
}

/// The name has an offset and no size: it is absent.
fn show_older() {
    let mut connect_info = [0; 84];
    for (position, byte) in [(0, 0xC1), (4, 2), (8, 6), (12, 80)] {
        connect_info[position] = byte;
    }
    let reading = dp8::read(&connect_info);
    println!(
        "connect info: number {}, name {:?}",
        reading.number,
        reading.name.of(&connect_info)
    );
}

fn saved() -> Replica {
    let mut replica = Replica::fresh();
    assert_eq!(replica.read_snapshot(&SAVED), 0, "snapshot refused");
    replica
}

fn main() {
    let mut replica = saved();
    show("player 100 leaves", replica.deliver(&HOST_LEAVES));

    // Player 400 joins, version 6. The writer lays out the message; of its fields the name is given, with its terminator.
    let player = AddPlayer {
        dpnid: 400,
        version: 6,
        dnet_version: 7,
        ..AddPlayer::default()
    };
    let name = wide("Cy😀");
    let fields = EntryFields {
        name: Some(&name),
        ..EntryFields::default()
    };
    let mut message = [0; 128];
    let written = dp8::write_add_player(&mut message, player, fields);
    assert_eq!(written.number, 0, "writer refused");
    let joining = &message[..written.bytes];
    show("player 400 joins", replica.deliver(joining));

    println!(
        "version {}, host {}, next host {}",
        replica.version,
        replica.host,
        replica.next_host().id
    );

    show_entries(&replica);

    let mut snapshot = [0; dp8::SNAPSHOT];
    let written = replica.write_snapshot(&mut snapshot);
    let bytes = snapshot[..written.bytes].iter();
    let shown: String = bytes.map(|byte| format!(" {byte:02x}")).collect();
    println!("snapshot{shown}");

    show_group(&mut replica);
    show_batches(joining);
    show_name(joining);
    show_older();
}
