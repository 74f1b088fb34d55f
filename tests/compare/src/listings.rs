//! The listing of whole inputs, into buffers of any size.

use crate::buffer::Buffer;
use crate::characters::note_all;
use crate::comparison::{hex, Call, Comparison, Verdict};
use crate::snapshots::damaged_snapshot;
use second::framing;
use second::name_table::{Entry, PLAYER};
use second::random::{self, Rng};
use second::replica::Replica;

/// Bytes of input that are taken at most.
const TAKEN: usize = 65_536;

pub fn compare_listing(c: &mut Comparison, rng: &mut Rng) -> Verdict {
    let input = match rng.below(8) {
        0 => damaged_snapshot(rng),
        1 => small_input(rng),
        _ => random::framed_input(rng),
    };
    c.listed_messages += frames(&input);
    let text = second::listing::listing(&input, false);
    if input.len() > TAKEN {
        c.event("listing: over 65,536 bytes of input");
    }
    note_counts(c, &input, &text);
    note_halves(c, &input);
    note_groups(c, &input, &text);
    let cut = text.ends_with(b"cut\n");
    c.event(if cut {
        "listing: cut"
    } else {
        "listing: not cut"
    });
    for _ in 0..3 {
        let room = match rng.below(6) {
            0 => text.len(),
            1 => text.len().saturating_sub(1),
            2 => rng.below(text.len() + 1),
            3 => text.len() + rng.below(9),
            4 => 0,
            _ => dp8::LISTING,
        };
        compare_into(c, &input, &text, room, rng.byte())?;
    }
    Ok(())
}

/// The longest listing there is: 64 entries, each with numbers of ten digits and a name of 31 characters, and a tail.
pub fn compare_longest(c: &mut Comparison) -> Verdict {
    let first = u32::MAX - 100;
    let each = (first..first + 64).map(|id| Entry {
        kind: PLAYER,
        id,
        owner: 0,
        flags: 0,
        version: id,
        dnet_version: 7,
        name: vec![0x41; dp8::NAME],
    });
    let saved = Replica {
        version: u32::MAX,
        host: first,
        entries: each.collect(),
        ..Replica::fresh()
    };
    let mut input = random::name_table_bytes(&saved);
    input.push(0);
    let text = second::listing::listing(&input, false);
    assert_eq!(text.len(), 2_103);
    c.event("listing: longest there is");
    for room in [dp8::LISTING, text.len(), text.len() - 1] {
        compare_into(c, &input, &text, room, 1)?;
    }
    Ok(())
}

/// As much of the text as there is room for, and the rest of the buffer as it was.
pub fn compare_into(
    c: &mut Comparison,
    input: &[u8],
    text: &[u8],
    room: usize,
    salt: u8,
) -> Verdict {
    let (mut own, mut other) = (Buffer::new(room, salt), Buffer::new(room, salt));
    let answer = dp8::listing(input, own.lent());
    let shown = text.len().min(room);
    other.lent()[..shown].copy_from_slice(&text[..shown]);
    if shown < text.len() {
        c.event("listing: buffer too short");
    }
    let show = || format!("room {room} salt {salt} input {}", hex(input));
    let call = (Call::Listing, refused_number(text));
    c.same(call, show, (answer, own.whole()), (shown, other.whole()))
}

/// Notes counts of characters that the lines of entries end in, and the format that they were read from.
fn note_counts(c: &mut Comparison, input: &[u8], text: &[u8]) {
    let text = String::from_utf8_lossy(text);
    let mut counts =
        text.lines()
            .filter_map(|line| match line.split(' ').collect::<Vec<_>>()[..] {
                [_, _, _, count] => Some(count.to_string()),
                _ => None,
            });
    let format = input.get(4);
    for (count, event) in [
        ("0", "listing: no name"),
        ("1", "listing: a name of 1 character"),
        ("16", "listing: a name of 16 characters"),
        ("30", "listing: a name of 30 characters"),
        ("31", "listing: a name of 31 characters"),
    ] {
        if counts.clone().any(|own| own == count) {
            c.event(event);
        }
    }
    if format == Some(&1) && counts.any(|count| count != "0") {
        c.event("listing: of format 1, and a name that came after it");
    }
}

/// Notes what the names of the entries that are listed have of halves.
fn note_halves(c: &mut Comparison, input: &[u8]) {
    let (first, rest) = framing::split_snapshot(framing::taken(input, TAKEN).0);
    let mut replica = second::snapshot::read(first).unwrap_or_default();
    for m in framing::messages(rest).0 {
        replica.deliver(m);
    }
    note_all(c, "listing", replica.entries.iter().map(|e| &e.name[..]));
}

/// Notes a group whose version is above the snapshot's.
fn note_groups(c: &mut Comparison, input: &[u8], text: &[u8]) {
    let saved = input.get(5..9).and_then(|bytes| bytes.try_into().ok());
    let saved = saved.map_or(u32::MAX, u32::from_be_bytes);
    let text = String::from_utf8_lossy(text);
    let is_new = |line: &str| match line.split(' ').collect::<Vec<_>>()[..] {
        ["group", _, version, _] => version.parse().is_ok_and(|own: u32| own > saved),
        _ => false,
    };
    if text.lines().any(is_new) {
        c.event("listing: a group that came after the snapshot");
    }
}

/// The number of a line `refused N`, 0 where there is none.
fn refused_number(text: &[u8]) -> u32 {
    let text = String::from_utf8_lossy(text);
    let number = text
        .strip_prefix("refused ")
        .and_then(|rest| rest.trim_end().parse().ok());
    number.unwrap_or(0)
}

/// A fresh snapshot and a few bytes, or fewer bytes than a snapshot has.
fn small_input(rng: &mut Rng) -> Vec<u8> {
    let format = rng.pick(&[1, 2]);
    let mut input = vec![0, 0, 0, 11, format, 0, 0, 0, 0, 0, 0, 0, 0, 0, 0];
    for _ in 0..rng.between(0, 12) {
        input.push(rng.pick(&[0, 0, 0, 0, 1, 4, 20]));
    }
    if rng.one_in(4) {
        input.truncate(rng.below(input.len()));
    }
    input
}

/// How many whole messages stand after the snapshot, for the report alone.
fn frames(input: &[u8]) -> u64 {
    let taken = &input[..input.len().min(TAKEN)];
    let (mut count, mut rest) = (0, taken);
    while let Some((length, after)) = rest.split_first_chunk::<4>() {
        let length = u32::from_be_bytes(*length) as usize;
        match after.get(length..) {
            Some(next) => rest = next,
            None => break,
        }
        count += 1;
    }
    u64::saturating_sub(count, 1)
}
