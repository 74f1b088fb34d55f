//! The listing (01 "The listing"; 02 A3, A9): one snapshot, then framed messages.

use crate::characters;
use crate::framing;
use crate::name_table::PLAYER;
use crate::replica::Replica;
use crate::snapshot;

/// Bytes of input taken at most.
pub const MAX_INPUT: usize = 65_536;

/// The whole output. `more` tells that the input went on past the limit; an
/// `input` longer than the limit is cut at it and counts as `more` too.
pub fn listing(input: &[u8], more: bool) -> Vec<u8> {
    let (taken, past_limit) = framing::taken(input, MAX_INPUT);
    let (first, rest) = framing::split_snapshot(taken);
    let mut replica = match snapshot::read(first) {
        Ok(replica) => replica,
        // Only this line, even where the input was cut.
        Err(number) => return format!("refused {number}\n").into_bytes(),
    };
    let (messages, tail) = framing::messages(rest);
    for m in messages {
        replica.deliver(m);
    }
    let mut text = name_table_lines(&replica);
    if tail || more || past_limit {
        text.push_str("cut\n");
    }
    text.into_bytes()
}

fn name_table_lines(replica: &Replica) -> String {
    let next = replica.next_host().unwrap_or(0); // valid: read from a snapshot
    let mut text = format!(
        "version {} host {} next {next}\n",
        replica.version, replica.host
    );
    for e in &replica.entries {
        let kind = if e.kind == PLAYER { "player" } else { "group" };
        let count = characters::of_units(&e.name);
        text.push_str(&format!("{kind} {} {} {count}\n", e.id, e.version));
    }
    text
}
