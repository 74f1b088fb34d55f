//! Lengths of more than 32 bits, equal in their low 32 bits to lengths that would be accepted. The memory is mapped, not touched.

use crate::batches::compare_batch;
use crate::bridge::{self, EMPTY};
use crate::buffer::Lent;
use crate::comparison::{Call, Comparison, Difference, Verdict};
use crate::replicas::compare_deliver;
use crate::snapshots::compare_read;
use dp8::{AddPlayer, Answer, CreateGroup, DestroyPlayer, EntryFields, Reading, Written};
use second::write as w;
use std::ffi::{c_int, c_void};

const OVER: usize = 1 << 32;

extern "C" {
    fn mmap(
        at: *mut c_void,
        length: usize,
        protection: c_int,
        flags: c_int,
        file: c_int,
        offset: i64,
    ) -> *mut c_void;
}

/// So many zero bytes; none where the system has no room for that.
fn map(length: usize) -> Option<&'static mut [u8]> {
    let (read_write, private_anonymous_unreserved) = (1 | 2, 2 | 0x20 | 0x4000);
    // SAFETY: asks for new memory; it is never given back, and the slice is the only way to it.
    unsafe {
        let at = mmap(
            std::ptr::null_mut(),
            length,
            read_write,
            private_anonymous_unreserved,
            -1,
            0,
        );
        (at as isize != -1).then(|| std::slice::from_raw_parts_mut(at.cast(), length))
    }
}

/// Every function that takes a length, once; false where the memory is not to be had.
pub fn compare_huge(c: &mut Comparison) -> Result<bool, Difference> {
    let Some(memory) = map(OVER + 0x2_0000) else {
        return Ok(false);
    };
    messages(c, memory)?;
    batch(c, memory)?;
    snapshot(c, memory)?;
    listing(c, memory)?;
    fields(c, memory)?;
    buffers(c, memory)?;
    records(c)
}

fn show(what: &str) -> impl Fn() -> String + '_ {
    move || format!("{what} of 4,294,967,296 bytes more than it has")
}

/// 0xD1 of id 100, version 1, which both a reader and a fresh replica accept in 20 bytes.
const OPERATION: [u8; 20] = [
    0xD1, 0, 0, 0, 100, 0, 0, 0, 1, 0, 0, 0, 0, 0, 0, 0, 0, 0, 0, 0,
];

/// After its length.
fn framed_operation() -> Vec<u8> {
    [&[0, 0, 0, 20], &OPERATION[..]].concat()
}

/// Read, and delivered.
fn messages(c: &mut Comparison, memory: &mut [u8]) -> Verdict {
    memory[..20].copy_from_slice(&OPERATION);
    let m = &memory[..OVER + 20];
    let expected = bridge::reading(&second::read::read(m));
    let refused = Reading {
        number: 1,
        ..Reading::default()
    };
    assert_eq!(expected, refused);
    c.same(
        (Call::Read, 1),
        show("0xD1"),
        (dp8::read(m), vec![]),
        (expected, vec![]),
    )?;
    let answer = compare_deliver(c, &mut EMPTY.clone(), m)?;
    assert_eq!(answer.number, 1);
    Ok(())
}

/// The longest message there can be, then the 0xD1; and that message without its last byte. 4 more than its length is 3 in 32 bits.
fn batch(c: &mut Comparison, memory: &mut [u8]) -> Verdict {
    memory[..4].fill(0xFF);
    memory[OVER + 3..][..24].copy_from_slice(&framed_operation());
    for (length, count) in [(OVER + 27, 2), (OVER + 2, 0)] {
        let input = &memory[..length];
        let (answer, _) = compare_batch(c, &mut EMPTY.clone(), input, (3, 0))?;
        assert_eq!((answer.number, answer.count), (0, count));
    }
    memory[OVER + 3..][..24].fill(0);
    Ok(())
}

/// Two messages into as many records as are 1 in 32 bits; false where there is no memory for these.
fn records(c: &mut Comparison) -> Result<bool, Difference> {
    let count = OVER + 1;
    let Some(memory) = map(count * size_of::<Answer>()) else {
        return Ok(false);
    };
    // SAFETY: so many zero bytes, at the start of a page.
    let answers = unsafe { std::slice::from_raw_parts_mut(memory.as_mut_ptr().cast(), count) };
    let input = framed_operation().repeat(2);
    let (mut replica, mut other) = (EMPTY, [Answer::default(); 4]);
    let answer = replica.batch(&input, answers);
    let (expected, next) = bridge::batched(&EMPTY, &input, &mut other);
    assert_eq!((expected.number, expected.count), (0, 2));
    c.same(
        (Call::Batch, 0),
        || format!("{count} records"),
        ((answer, &answers[..4]), &Lent::new(replica)),
        ((expected, &other[..]), &Lent::new(next)),
    )?;
    Ok(true)
}

fn snapshot(c: &mut Comparison, memory: &mut [u8]) -> Verdict {
    memory[..20].fill(0);
    memory[..5].copy_from_slice(&[0, 0, 0, 11, 2]);
    let bytes = &memory[..OVER + 15];
    assert_eq!(second::snapshot::read(bytes), Err(21));
    compare_read(c, EMPTY, bytes)?;
    Ok(())
}

/// The fresh snapshot, then messages of no bytes as far as the input is taken.
fn listing(c: &mut Comparison, memory: &mut [u8]) -> Verdict {
    memory[..20].fill(0);
    memory[..5].copy_from_slice(&[0, 0, 0, 11, 2]);
    let input = &memory[..OVER + 15];
    let text = second::listing::listing(input, false);
    assert_eq!(text, b"version 0 host 0 next 0\ncut\n");
    let mut buffer = [7; 64];
    let length = dp8::listing(input, &mut buffer);
    let mut expected = [7; 64];
    expected[..text.len()].copy_from_slice(&text);
    let outcome = (text.len(), &expected[..]);
    c.same(
        (Call::Listing, 0),
        show("input"),
        (length, &buffer[..]),
        outcome,
    )
}

/// Each field of a 0xD0 and of a 0xD7, well-formed in its first bytes.
fn fields(c: &mut Comparison, memory: &mut [u8]) -> Verdict {
    memory[..20].fill(0);
    let long: &[u8] = &memory[..OVER + 2];
    for which in 0..3 {
        let field = |own: usize| (own == which).then_some(long);
        let given = EntryFields {
            name: field(0),
            data: field(1),
            url: field(2),
        };
        let other_given = w::EntryFields {
            name: field(0),
            data: field(1),
            url: field(2),
        };
        let player = AddPlayer {
            dpnid: 1,
            ..AddPlayer::default()
        };
        let group = CreateGroup {
            dpnid: 1,
            ..CreateGroup::default()
        };
        let mut values = w::CreateGroupValues::default();
        values.entry.dpnid = 1;
        let (mut own, mut other) = ([3; 100], [3; 100]);
        let proved = dp8::write_add_player(&mut own, player, given);
        let expected = w::write_add_player(&mut other, &values.entry, &other_given);
        same_writing(c, Call::WriteAddPlayer, (proved, &own), (expected, &other))?;
        let proved = dp8::write_create_group(&mut own, group, given);
        let expected = w::write_create_group(&mut other, &values, &other_given);
        same_writing(
            c,
            Call::WriteCreateGroup,
            (proved, &own),
            (expected, &other),
        )?;
    }
    Ok(())
}

fn same_writing(
    c: &mut Comparison,
    call: Call,
    proved: (Written, &[u8; 100]),
    second: (w::Written, &[u8; 100]),
) -> Verdict {
    let expected = written(second.0);
    c.same(
        (call, expected.number),
        show("field"),
        (proved.0, &proved.1[..]),
        (expected, &second.1[..]),
    )
}

/// Buffers whose room is small in its low 32 bits.
fn buffers(c: &mut Comparison, memory: &mut [u8]) -> Verdict {
    let room = OVER + 3;
    let (mut other, shown) = (vec![0; 64], 64);
    memory[..shown].fill(0);
    let values = DestroyPlayer {
        dpnid: 1,
        version: 2,
        reason: 3,
    };
    let proved = dp8::write_destroy_player(&mut memory[..room], values);
    let values = w::DestroyPlayerValues {
        dpnid: 1,
        version: 2,
        reason: 3,
    };
    let expected = written(w::write_destroy_player(&mut other, &values));
    let call = (Call::WriteDestroyPlayer, expected.number);
    c.same(
        call,
        show("buffer"),
        (proved, &memory[..shown]),
        (expected, &other[..]),
    )?;
    let proved = EMPTY.write_snapshot(&mut memory[..room]);
    let expected = written(second::snapshot::write(
        &second::replica::Replica::fresh(),
        &mut other,
    ));
    let call = (Call::SnapshotWrite, expected.number);
    c.same(
        call,
        show("buffer"),
        (proved, &memory[..shown]),
        (expected, &other[..]),
    )
}

fn written(answer: w::Written) -> Written {
    Written {
        number: answer.number,
        bytes: answer.written,
    }
}
