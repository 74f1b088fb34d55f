//! Rows of messages: read, and written.

use crate::inputs::{self, add_player, add_to_group, create_group, delete_from_group};
use crate::inputs::{destroy_group, destroy_player, fields, request};
use crate::timing::{Pure, Side};
use crate::Bench;
use compare::bridge::reading;
use second::write as w;
use std::hint::black_box;

pub fn messages(b: &mut Bench) {
    read(b, "read 0xC1, plain, without fields", &connect_info(false));
    read(
        b,
        "read 0xC1, plain, an offset alone for each field",
        &offsets_alone(),
    );
    read(
        b,
        "read 0xC1, extended, with all fields",
        &connect_info(true),
    );
    read(b, "read 0xD0 without fields", &add_player(900, 101));
    read(b, "read 0xD0 with name, data and URL", &with_fields());
    read(b, "read 0xD1", &destroy_player(900, 101));
    read(b, "read 0xD3", &request(8, 900));
    read(b, "read 0xD7 without fields", &create_group(900, 101));
    read(b, "read 0xD8", &destroy_group(8, 101));
    read(b, "read 0xD9", &add_to_group(8, 900, 101));
    read(b, "read 0xDA", &delete_from_group(8, 900, 101));
    write(b, "write 0xD0 with name, data and URL");
}

/// What is read stands where the caller wants it, and is not copied for the sake of the measurement.
fn read(b: &mut Bench, name: &str, m: &[u8]) {
    if b.skips(name) {
        return;
    }
    let answer = reading(&second::read::read(m));
    assert!(answer.number == 0 && dp8::read(m) == answer);
    let proved = || {
        black_box(&dp8::read(black_box(m)));
    };
    let second = || {
        black_box(&second::read::read(black_box(m)));
    };
    b.row(name, &Pure { call: proved }, &Pure { call: second });
}

/// A 0xC1 of one of its forms.
fn connect_info(extended: bool) -> Vec<u8> {
    let f = fields();
    let values = w::ConnectInfoValues {
        flags: 4,
        dnet_version: if extended { 7 } else { 6 },
        instance_guid: [1; 16],
        application_guid: [2; 16],
    };
    let given = w::ConnectInfoFields {
        alternate_address: extended.then_some(&f.data[..8]),
        url: extended.then_some(&f.url),
        connect_data: extended.then_some(&f.data),
        password: extended.then_some(&f.name),
        data: extended.then_some(&f.data),
        name: extended.then_some(&f.name),
    };
    let mut buffer = [0; 512];
    let written = w::write_connect_info(&mut buffer, &values, &given);
    buffer[..written.written].to_vec()
}

/// A plain 0xC1 as an older seat sends it: each field starts at the message's end and has size 0.
fn offsets_alone() -> Vec<u8> {
    let mut m = connect_info(false);
    let end = m.len() as u32 - 4;
    for offset in [12, 20, 28, 36, 44] {
        m[offset..offset + 4].copy_from_slice(&end.to_le_bytes());
    }
    m
}

/// The 0xD0 that is written below.
fn with_fields() -> Vec<u8> {
    let mut buffer = [0; 512];
    let written = second_write(&mut buffer, &fields());
    buffer[..written.written].to_vec()
}

fn second_write(buffer: &mut [u8], f: &inputs::Fields) -> w::Written {
    let values = w::EntryValues {
        dpnid: 900,
        owner: 1,
        flags: 0x100,
        version: 101,
        dnet_version: 7,
    };
    let given = w::EntryFields {
        url: Some(&f.url),
        data: Some(&f.data),
        name: Some(&f.name),
    };
    w::write_add_player(buffer, black_box(&values), black_box(&given))
}

fn proved_write(buffer: &mut [u8], f: &inputs::Fields) -> dp8::Written {
    let values = dp8::AddPlayer {
        dpnid: 900,
        owner: 1,
        flags: 0x100,
        version: 101,
        dnet_version: 7,
    };
    let given = dp8::EntryFields {
        url: Some(&f.url),
        data: Some(&f.data),
        name: Some(&f.name),
    };
    dp8::write_add_player(buffer, black_box(values), black_box(given))
}

fn write(b: &mut Bench, name: &str) {
    if b.skips(name) {
        return;
    }
    let f = fields();
    let (mut one, mut other) = ([0; 512], [0; 512]);
    assert_eq!(
        proved_write(&mut one, &f).bytes,
        second_write(&mut other, &f).written
    );
    assert_eq!(one, other);
    let proved = Side {
        prepare: || [0; 512],
        call: |buffer: &mut [u8; 512]| {
            black_box(proved_write(buffer, &f));
        },
    };
    let second = Side {
        prepare: || [0; 512],
        call: |buffer: &mut [u8; 512]| {
            black_box(second_write(buffer, &f));
        },
    };
    b.row(name, &proved, &second);
}
