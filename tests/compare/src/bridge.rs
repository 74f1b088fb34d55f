//! Values of the second implementation as values of include/dp8.h, and back.

use dp8::{Answer, Batch, Entry, Guid, Membership, Name, Operation, Part, Reading, Replica};
use dp8::{ADD_ENTRY, ENTRIES, JOIN, LEAVE, MEMBERSHIPS, NAME, PENDING, REMOVE_ENTRY, VALUES};
use second::message::{ConnectInfo, EntryInfo, MembershipChange, Message, Place};
use second::operation::Operation as Kept;
use second::replica::Answer as Told;

/// Version 0 and nothing in it, made without the library.
pub const EMPTY: Replica = Replica {
    version: 0,
    host: 0,
    entry_count: 0,
    membership_count: 0,
    entries: [Entry {
        kind: 0,
        id: 0,
        owner: 0,
        flags: 0,
        version: 0,
        dnet_version: 0,
        name: NO_NAME,
    }; ENTRIES],
    memberships: [Membership {
        group: 0,
        player: 0,
    }; MEMBERSHIPS],
    pending: [UNUSED; PENDING],
};

/// An unused place.
pub const UNUSED: Operation = Operation {
    act: 0,
    version: 0,
    kind: 0,
    id: 0,
    owner: 0,
    flags: 0,
    dnet_version: 0,
    name: NO_NAME,
};

/// The empty name.
const NO_NAME: Name = Name {
    length: 0,
    units: [0; NAME + 1],
};

// ---- messages ----

/// What the header promises of a message that the second implementation reads so.
pub fn reading(read: &Result<Message, u32>) -> Reading {
    let zero = Reading::default();
    match read {
        Err(number) => Reading {
            number: *number,
            ..zero
        },
        Ok(Message::ConnectInfo(m)) => Reading {
            message_type: 0xC1,
            words: connect_info_words(m),
            name: part(m.name),
            data: part(m.data),
            password: part(m.password),
            connect_data: part(m.connect_data),
            url: part(m.url),
            alternate_address: part(m.alternate_address),
            ..zero
        },
        Ok(Message::AddPlayer(m)) => of_entry(0xD0, &[], m),
        Ok(Message::CreateGroup(m)) => of_entry(0xD7, &[m.requesting, m.context], &m.entry),
        Ok(other) => without_fields(other),
    }
}

/// The words before the entry, and all of the entry.
fn of_entry(message_type: u32, head: &[u32], m: &EntryInfo) -> Reading {
    let own = [m.dpnid, m.owner, m.flags, m.version, m.dnet_version];
    Reading {
        message_type,
        words: words(&[head, &own].concat()),
        version_not_used: m.version_not_used,
        name: part(m.name),
        data: part(m.data),
        url: part(m.url),
        ..Reading::default()
    }
}

fn without_fields(message: &Message) -> Reading {
    let zero = Reading::default();
    match message {
        Message::DestroyPlayer(m) => Reading {
            message_type: 0xD1,
            words: words(&[m.dpnid, m.version, m.reason]),
            version_not_used: m.version_not_used,
            ..zero
        },
        Message::RequestAddPlayerToGroup(m) => Reading {
            message_type: 0xD3,
            words: words(&[m.context, m.group, m.player]),
            ..zero
        },
        Message::DestroyGroup(m) => Reading {
            message_type: 0xD8,
            words: words(&[m.group, m.version, m.requesting, m.context]),
            version_not_used: m.version_not_used,
            ..zero
        },
        Message::AddPlayerToGroup(m) => of_change(0xD9, m),
        Message::DeletePlayerFromGroup(m) => of_change(0xDA, m),
        Message::ConnectInfo(_) | Message::AddPlayer(_) | Message::CreateGroup(_) => zero,
    }
}

fn of_change(message_type: u32, m: &MembershipChange) -> Reading {
    Reading {
        message_type,
        words: words(&[m.group, m.player, m.version, m.requesting, m.context]),
        version_not_used: m.version_not_used,
        ..Reading::default()
    }
}

fn connect_info_words(m: &ConnectInfo) -> [u32; VALUES] {
    let mut all = words(&[m.flags, m.dnet_version]);
    all[2..6].copy_from_slice(&Guid::from_bytes(m.instance_guid).words);
    all[6..].copy_from_slice(&Guid::from_bytes(m.application_guid).words);
    all
}

/// The words of a type's struct, and zeros.
fn words(values: &[u32]) -> [u32; VALUES] {
    let mut all = [0; VALUES];
    all[..values.len()].copy_from_slice(values);
    all
}

fn part(place: Place) -> Part {
    match place {
        None => Part::default(),
        Some(field) => Part {
            present: true,
            start: field.start,
            size: field.size,
            characters: field.characters.unwrap_or(0),
        },
    }
}

// ---- replicas ----

/// In C's places. Lists and names that are too long keep their count and lose their end; an operation whose place is taken, or that has
/// none, goes to a place that is not its own.
pub fn from_second(replica: &second::replica::Replica) -> Replica {
    let mut made = EMPTY;
    made.version = replica.version;
    made.host = replica.host;
    made.entry_count = replica.entries.len() as u32;
    for (place, e) in made.entries.iter_mut().zip(&replica.entries) {
        *place = entry(e);
    }
    made.membership_count = replica.memberships.len() as u32;
    for (place, &(group, player)) in made.memberships.iter_mut().zip(&replica.memberships) {
        *place = Membership { group, player };
    }
    for operation in &replica.pending {
        let own = place_of(replica.version, operation.version());
        let free = |k: &usize| made.pending[*k] == UNUSED;
        let other = (0..PENDING).find(|k| free(k) && Some(*k) != own);
        let place = own.filter(free).or(other).unwrap_or(0);
        made.pending[place] = row(operation);
    }
    made
}

fn entry(e: &second::name_table::Entry) -> Entry {
    Entry {
        kind: e.kind,
        id: e.id,
        owner: e.owner,
        flags: e.flags,
        version: e.version,
        dnet_version: e.dnet_version,
        name: name(&e.name),
    }
}

fn name(units: &[u16]) -> Name {
    let mut made = NO_NAME;
    made.length = units.len() as u32;
    for (place, unit) in made.units.iter_mut().zip(units) {
        *place = *unit;
    }
    made
}

/// The place of a version from 2 to 32 above the replica's.
fn place_of(current: u32, version: u32) -> Option<usize> {
    let ahead = u64::from(version).checked_sub(u64::from(current) + 2)?;
    usize::try_from(ahead).ok().filter(|k| *k < PENDING)
}

fn row(operation: &Kept) -> Operation {
    let version = operation.version();
    let of_pair = |act, group, player| Operation {
        act,
        version,
        id: group,
        owner: player,
        ..UNUSED
    };
    match *operation {
        Kept::AddEntry(ref e) => Operation {
            act: ADD_ENTRY,
            version,
            kind: e.kind,
            id: e.id,
            owner: e.owner,
            flags: e.flags,
            dnet_version: e.dnet_version,
            name: name(&e.name),
        },
        Kept::DestroyEntry { kind, id, .. } => Operation {
            act: REMOVE_ENTRY,
            version,
            kind,
            id,
            ..UNUSED
        },
        Kept::AddPlayerToGroup { group, player, .. } => of_pair(JOIN, group, player),
        Kept::DeletePlayerFromGroup { group, player, .. } => of_pair(LEAVE, group, player),
    }
}

/// As the second implementation's value. None where it has no such value, and then the replica is not valid: a count over its limit,
/// an unused word or unit that is not zero, a name longer than its places, an unknown act, an operation in another version's place.
pub fn to_second(replica: &Replica) -> Option<second::replica::Replica> {
    let entries = used(&replica.entries, replica.entry_count)?;
    let memberships = used(&replica.memberships, replica.membership_count)?;
    let mut pending = Vec::new();
    for (k, place) in replica.pending.iter().enumerate() {
        if *place != UNUSED {
            if place_of(replica.version, place.version) != Some(k) {
                return None;
            }
            pending.push(kept(place)?);
        }
    }
    Some(second::replica::Replica {
        version: replica.version,
        host: replica.host,
        entries: entries.iter().map(second_entry).collect::<Option<_>>()?,
        memberships: memberships.iter().map(|m| (m.group, m.player)).collect(),
        pending,
    })
}

/// The places in use, if there are so many and the others are zero.
fn used<T: Default + PartialEq>(places: &[T], count: u32) -> Option<&[T]> {
    let (used, unused) = places.split_at_checked(count as usize)?;
    unused.iter().all(|p| *p == T::default()).then_some(used)
}

fn second_entry(e: &Entry) -> Option<second::name_table::Entry> {
    Some(second::name_table::Entry {
        kind: e.kind,
        id: e.id,
        owner: e.owner,
        flags: e.flags,
        version: e.version,
        dnet_version: e.dnet_version,
        name: used(&e.name.units, e.name.length)?.to_vec(),
    })
}

/// What a row stands for; none where the row of that is another one.
fn kept(place: &Operation) -> Option<Kept> {
    let Operation {
        version, kind, id, ..
    } = *place;
    let (group, player) = (id, place.owner);
    let made = match place.act {
        ADD_ENTRY => Kept::AddEntry(second::name_table::Entry {
            kind,
            id,
            owner: place.owner,
            flags: place.flags,
            version,
            dnet_version: place.dnet_version,
            name: used(&place.name.units, place.name.length)?.to_vec(),
        }),
        REMOVE_ENTRY => Kept::DestroyEntry { version, kind, id },
        JOIN => Kept::AddPlayerToGroup {
            version,
            group,
            player,
        },
        LEAVE => Kept::DeletePlayerFromGroup {
            version,
            group,
            player,
        },
        _ => return None,
    };
    (row(&made) == *place).then_some(made)
}

/// What delivering the message to this replica must answer, and the replica that must stand there then: word for word the same where
/// it is refused.
pub fn delivered(replica: &Replica, message: &[u8]) -> (Answer, Replica) {
    let Some(mut own) = to_second(replica) else {
        return (answer(Told::Refused(28)), *replica);
    };
    match own.deliver(message) {
        refused @ Told::Refused(_) => (answer(refused), *replica),
        told => (answer(told), from_second(&own)),
    }
}

/// As C's struct.
pub fn answer(told: Told) -> Answer {
    let zero = Answer::default();
    match told {
        Told::Refused(number) => Answer { number, ..zero },
        Told::Waits => zero,
        Told::Applied { passed, noops } => Answer {
            passed,
            noops,
            ..zero
        },
    }
}

/// What a batch must answer, and the replica that must stand there then, word for word the same where it is refused. The records get
/// what must stand in them.
pub fn batched(replica: &Replica, messages: &[u8], records: &mut [Answer]) -> (Batch, Replica) {
    let refused = |number| {
        let zero = Batch::default();
        (Batch { number, ..zero }, *replica)
    };
    let Some(mut own) = to_second(replica) else {
        return refused(28);
    };
    let mut told = vec![Told::Waits; records.len()];
    match own.batch(messages, &mut told) {
        Err(number) => refused(number),
        Ok(second::batch::Batch { count, cut }) => {
            for (record, told) in records.iter_mut().zip(&told[..count]) {
                *record = answer(*told);
            }
            let number = 0;
            (Batch { number, count, cut }, from_second(&own))
        }
    }
}

/// What reading a snapshot must answer, and the replica that must stand there then.
pub fn loaded(snapshot: &[u8]) -> (u32, Replica) {
    match second::snapshot::read(snapshot) {
        Err(number) => (number, EMPTY),
        Ok(own) => (0, from_second(&own)),
    }
}

/// Whether the replica is valid.
pub fn is_valid(replica: &Replica) -> bool {
    to_second(replica).is_some_and(|own| own.is_valid())
}
