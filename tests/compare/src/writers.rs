//! The eight writers: the answer, and every byte of a buffer of any size and of what is around it.

use crate::buffer::{room, Buffer};
use crate::comparison::{Call, Comparison, Verdict};
use crate::events::FIELDS;
use crate::fields::{fill_to_limit, Content, Field};
use dp8::{ffi, Guid, Written};
use second::random::Rng;
use second::write as w;
use std::fmt::Debug;

/// One message to write, into buffers of several sizes.
pub fn compare_writer(c: &mut Comparison, rng: &mut Rng) -> Verdict {
    match rng.below(14) {
        0..=2 => connect_info(c, rng),
        3..=5 => add_player(c, rng),
        6..=8 => create_group(c, rng),
        9 => destroy_player(c, rng),
        10 => request_add_to_group(c, rng),
        11 => destroy_group(c, rng),
        12 => add_to_group(c, rng),
        _ => delete_from_group(c, rng),
    }
}

/// Both writers on the same buffers.
fn compare(
    c: &mut Comparison,
    rng: &mut Rng,
    (call, values, fields): (Call, &dyn Debug, &[Field]),
    proved: impl Fn(&mut [u8]) -> Written,
    second: impl Fn(&mut [u8]) -> w::Written,
) -> Verdict {
    let total = second(&mut [0; 20_000]).written;
    for _ in 0..4 {
        let room = room(rng, if total > 0 { total } else { 60 });
        let salt = rng.byte();
        let (mut own, mut other) = (Buffer::new(room, salt), Buffer::new(room, salt));
        let (p, s) = (proved(own.lent()), second(other.lent()));
        let expected = Written {
            number: s.number,
            bytes: s.written,
        };
        match s.number {
            0 if room == total => c.event("writing: room exactly enough"),
            12 if room + 1 == total => c.event("writing: one byte short"),
            _ => {}
        }
        let input = || show(values, fields, room, salt);
        c.same(
            (call, s.number),
            input,
            (p, own.whole()),
            (expected, other.whole()),
        )?;
    }
    Ok(())
}

/// Notes a field that is given and empty where nothing else is wrong: without it the message is written.
fn note_empty<const N: usize>(
    c: &mut Comparison,
    form: usize,
    f: &[Field; N],
    second: impl Fn(&mut [u8], &[Field; N]) -> w::Written,
) {
    // A plain 0xC1 has one field less than its writer takes.
    for k in (0..FIELDS[form].1.len()).filter(|k| f[*k].given_empty()) {
        let mut without = f.clone();
        without[k].given = false;
        let number = |f| second(&mut [0; 20_000], f).number;
        if number(f) == 11 && number(&without) == 0 {
            c.field_event((form, k), "refused with 11 for nothing but an empty");
        }
    }
}

fn show(values: &dyn Debug, fields: &[Field], room: usize, salt: u8) -> String {
    let fields: Vec<String> = fields.iter().map(Field::show).collect();
    format!(
        "{values:x?} fields [{}] room {room} salt {salt}",
        fields.join(", ")
    )
}

fn connect_info(c: &mut Comparison, rng: &mut Rng) -> Verdict {
    use Content::{Bytes, Free, Wide};
    let values = connect_info_values(rng);
    let mut f = [Wide, Free, Wide, Free, Bytes, Free].map(|content| Field::any(rng, content));
    let plain = values.dnet_version < 7;
    if plain && !rng.one_in(8) {
        f[5].given = false;
    }
    fill_to_limit(rng, if plain { 84 } else { 92 }, &mut f, 1);
    let proved = |buffer: &mut [u8]| proved_connect_info(buffer, &values, &f);
    let second = |buffer: &mut [u8]| second_connect_info(buffer, &values, &f);
    let call = (Call::WriteConnectInfo, &values as &dyn Debug, &f[..]);
    compare(c, rng, call, proved, second)?;
    let second = |buffer: &mut [u8], f: &[Field; 6]| second_connect_info(buffer, &values, f);
    note_empty(c, usize::from(!plain), &f, second);
    Ok(())
}

fn connect_info_values(rng: &mut Rng) -> w::ConnectInfoValues {
    let any = rng.word();
    let wrong_flags = rng.pick(&[0, 1, 3, 6, 0x0200_0000, any]);
    let right_flags = rng.pick(&[2, 4]);
    w::ConnectInfoValues {
        flags: if rng.one_in(4) {
            wrong_flags
        } else {
            right_flags
        },
        dnet_version: rng.pick(&[0, 6, 7, 7, 8, 8, u32::MAX, any]),
        instance_guid: std::array::from_fn(|_| rng.byte()),
        application_guid: std::array::from_fn(|_| rng.byte()),
    }
}

fn second_connect_info(
    buffer: &mut [u8],
    values: &w::ConnectInfoValues,
    f: &[Field; 6],
) -> w::Written {
    let fields = w::ConnectInfoFields {
        name: f[0].for_second(),
        data: f[1].for_second(),
        password: f[2].for_second(),
        connect_data: f[3].for_second(),
        url: f[4].for_second(),
        alternate_address: f[5].for_second(),
    };
    w::write_connect_info(buffer, values, &fields)
}

/// Straight through the C interface, with the bytes of fields that are not given.
fn proved_connect_info(
    buffer: &mut [u8],
    values: &w::ConnectInfoValues,
    f: &[Field; 6],
) -> Written {
    let own = dp8::ConnectInfo {
        flags: values.flags,
        dnet_version: values.dnet_version,
        instance: Guid::from_bytes(values.instance_guid),
        application: Guid::from_bytes(values.application_guid),
    };
    let given = dp8::ConnectInfoGiven {
        name: f[0].given,
        data: f[1].given,
        password: f[2].given,
        connect_data: f[3].given,
        url: f[4].given,
        alternate_address: f[5].given,
    };
    let [name, data, password, connect_data, url, address] = f.each_ref().map(Field::raw);
    let (to, room) = (buffer.as_mut_ptr(), buffer.len());
    // SAFETY: each pointer comes with the length of its vector, and the buffer is borrowed alone.
    unsafe {
        ffi::dp8_write_connect_info(
            to,
            room,
            own,
            given,
            name.0,
            name.1,
            data.0,
            data.1,
            password.0,
            password.1,
            connect_data.0,
            connect_data.1,
            url.0,
            url.1,
            address.0,
            address.1,
        )
    }
}

fn add_player(c: &mut Comparison, rng: &mut Rng) -> Verdict {
    let (values, f) = (entry_values(rng), entry_fields(rng, 52));
    let proved = |buffer: &mut [u8]| proved_add_player(buffer, &values, &f);
    let second = |buffer: &mut [u8]| w::write_add_player(buffer, &values, &given(&f));
    compare(c, rng, (Call::WriteAddPlayer, &values, &f), proved, second)?;
    let second =
        |buffer: &mut [u8], f: &[Field; 3]| w::write_add_player(buffer, &values, &given(f));
    note_empty(c, 2, &f, second);
    Ok(())
}

fn create_group(c: &mut Comparison, rng: &mut Rng) -> Verdict {
    let values = w::CreateGroupValues {
        requesting: rng.pick(&[0, 1, u32::MAX]),
        context: rng.word(),
        entry: entry_values(rng),
    };
    let f = entry_fields(rng, 60);
    let proved = |buffer: &mut [u8]| proved_create_group(buffer, &values, &f);
    let second = |buffer: &mut [u8]| w::write_create_group(buffer, &values, &given(&f));
    compare(
        c,
        rng,
        (Call::WriteCreateGroup, &values, &f),
        proved,
        second,
    )?;
    let second =
        |buffer: &mut [u8], f: &[Field; 3]| w::write_create_group(buffer, &values, &given(f));
    note_empty(c, 3, &f, second);
    Ok(())
}

fn entry_values(rng: &mut Rng) -> w::EntryValues {
    w::EntryValues {
        dpnid: id(rng),
        owner: rng.word(),
        flags: rng.word(),
        version: rng.word(),
        dnet_version: rng.pick(&[0, 6, 7, 8]),
    }
}

/// Name, data and URL behind a fixed part of that size.
fn entry_fields(rng: &mut Rng, fixed: usize) -> [Field; 3] {
    let mut f =
        [Content::Wide, Content::Free, Content::Bytes].map(|content| Field::any(rng, content));
    fill_to_limit(rng, fixed, &mut f, 1);
    f
}

fn given(f: &[Field; 3]) -> w::EntryFields<'_> {
    w::EntryFields {
        name: f[0].for_second(),
        data: f[1].for_second(),
        url: f[2].for_second(),
    }
}

/// Straight through the C interface, with the bytes of fields that are not given.
fn proved_add_player(buffer: &mut [u8], values: &w::EntryValues, f: &[Field; 3]) -> Written {
    let own = dp8::AddPlayer {
        dpnid: values.dpnid,
        owner: values.owner,
        flags: values.flags,
        version: values.version,
        dnet_version: values.dnet_version,
    };
    let given = dp8::AddPlayerGiven {
        name: f[0].given,
        data: f[1].given,
        url: f[2].given,
    };
    let [name, data, url] = f.each_ref().map(Field::raw);
    let (to, room) = (buffer.as_mut_ptr(), buffer.len());
    // SAFETY: each pointer comes with the length of its vector, and the buffer is borrowed alone.
    unsafe {
        ffi::dp8_write_add_player(
            to, room, own, given, name.0, name.1, data.0, data.1, url.0, url.1,
        )
    }
}

/// The same of a 0xD7.
fn proved_create_group(
    buffer: &mut [u8],
    values: &w::CreateGroupValues,
    f: &[Field; 3],
) -> Written {
    let own = dp8::CreateGroup {
        requesting: values.requesting,
        context: values.context,
        dpnid: values.entry.dpnid,
        owner: values.entry.owner,
        flags: values.entry.flags,
        version: values.entry.version,
        dnet_version: values.entry.dnet_version,
    };
    let given = dp8::CreateGroupGiven {
        name: f[0].given,
        data: f[1].given,
        url: f[2].given,
    };
    let [name, data, url] = f.each_ref().map(Field::raw);
    let (to, room) = (buffer.as_mut_ptr(), buffer.len());
    // SAFETY: each pointer comes with the length of its vector, and the buffer is borrowed alone.
    unsafe {
        ffi::dp8_write_create_group(
            to, room, own, given, name.0, name.1, data.0, data.1, url.0, url.1,
        )
    }
}

fn destroy_player(c: &mut Comparison, rng: &mut Rng) -> Verdict {
    let (dpnid, version, reason) = (id(rng), rng.word(), rng.word());
    let own = dp8::DestroyPlayer {
        dpnid,
        version,
        reason,
    };
    let other = w::DestroyPlayerValues {
        dpnid,
        version,
        reason,
    };
    let proved = |buffer: &mut [u8]| dp8::write_destroy_player(buffer, own);
    let second = |buffer: &mut [u8]| w::write_destroy_player(buffer, &other);
    compare(
        c,
        rng,
        (Call::WriteDestroyPlayer, &other, &[]),
        proved,
        second,
    )
}

fn request_add_to_group(c: &mut Comparison, rng: &mut Rng) -> Verdict {
    let (context, group, player) = (rng.word(), id(rng), id(rng));
    let own = dp8::RequestAddToGroup {
        context,
        group,
        player,
    };
    let other = w::RequestAddPlayerToGroupValues {
        context,
        group,
        player,
    };
    let proved = |buffer: &mut [u8]| dp8::write_request_add_to_group(buffer, own);
    let second = |buffer: &mut [u8]| w::write_request_add_player_to_group(buffer, &other);
    compare(c, rng, (Call::WriteRequest, &other, &[]), proved, second)
}

fn destroy_group(c: &mut Comparison, rng: &mut Rng) -> Verdict {
    let (group, version) = (id(rng), rng.word());
    let (requesting, context) = (id(rng), rng.word());
    let own = dp8::DestroyGroup {
        group,
        version,
        requesting,
        context,
    };
    let other = w::DestroyGroupValues {
        group,
        version,
        requesting,
        context,
    };
    let proved = |buffer: &mut [u8]| dp8::write_destroy_group(buffer, own);
    let second = |buffer: &mut [u8]| w::write_destroy_group(buffer, &other);
    let call = (Call::WriteDestroyGroup, &other as &dyn Debug, &[][..]);
    compare(c, rng, call, proved, second)
}

fn membership_values(rng: &mut Rng) -> w::MembershipValues {
    w::MembershipValues {
        group: id(rng),
        player: id(rng),
        version: rng.word(),
        requesting: id(rng),
        context: rng.word(),
    }
}

fn add_to_group(c: &mut Comparison, rng: &mut Rng) -> Verdict {
    let other = membership_values(rng);
    let own = dp8::AddToGroup {
        group: other.group,
        player: other.player,
        version: other.version,
        requesting: other.requesting,
        context: other.context,
    };
    let proved = |buffer: &mut [u8]| dp8::write_add_to_group(buffer, own);
    let second = |buffer: &mut [u8]| w::write_add_player_to_group(buffer, &other);
    compare(c, rng, (Call::WriteAddToGroup, &other, &[]), proved, second)
}

fn delete_from_group(c: &mut Comparison, rng: &mut Rng) -> Verdict {
    let other = membership_values(rng);
    let own = dp8::DeleteFromGroup {
        group: other.group,
        player: other.player,
        version: other.version,
        requesting: other.requesting,
        context: other.context,
    };
    let proved = |buffer: &mut [u8]| dp8::write_delete_from_group(buffer, own);
    let second = |buffer: &mut [u8]| w::write_delete_player_from_group(buffer, &other);
    let call = (Call::WriteDeleteFromGroup, &other as &dyn Debug, &[][..]);
    compare(c, rng, call, proved, second)
}

/// An id, 0 now and then.
fn id(rng: &mut Rng) -> u32 {
    let any = rng.word();
    rng.pick(&[0, 1, 100, 0x100, 0x8000_0000, u32::MAX, any, any])
}
