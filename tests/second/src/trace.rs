//! The output of the program `trace`: the name table of the snapshot, then a
//! line for each delivery with what it did. No paper asks for it; its format
//! is the project's own.

use crate::decode::{name_text, said};
use crate::framing;
use crate::meaning::meaning;
use crate::name_table::PLAYER;
use crate::read::read;
use crate::replica::{Answer, Replica};
use crate::snapshot;

pub use crate::decode::MAX_INPUT;

/// The whole output.
pub fn trace(input: &[u8]) -> Vec<u8> {
    let (taken, past_limit) = framing::taken(input, MAX_INPUT);
    let (first, rest) = framing::split_snapshot(taken);
    let mut replica = match snapshot::read(first) {
        Ok(replica) => replica,
        // Only this line, even where the input was cut.
        Err(number) => return format!("snapshot: {}\n", refused_text(number)).into_bytes(),
    };
    let mut text = start_lines(&replica);
    let (messages, tail) = framing::messages(rest);
    for (index, m) in messages.into_iter().enumerate() {
        text.push_str(&delivery_line(&mut replica, index + 1, m));
    }
    if tail || past_limit {
        text.push_str("cut\n");
    }
    text.into_bytes()
}

/// The whole name table, entries in its order and then memberships.
fn start_lines(replica: &Replica) -> String {
    let mut text = format!("snapshot: {}\n", reached_text(replica));
    for e in &replica.entries {
        let kind = if e.kind == PLAYER { "player" } else { "group" };
        text.push_str(&format!(
            "{kind} {} version {} owner {} flags {} dnet {}{}\n",
            e.id,
            e.version,
            e.owner,
            e.flags,
            e.dnet_version,
            name_text(&e.name)
        ));
    }
    for (group, player) in &replica.memberships {
        text.push_str(&format!("member {group} {player}\n"));
    }
    text
}

/// Delivers a message: its place, what it says where it can be read, the
/// answer, and what the replica has reached after it.
fn delivery_line(replica: &mut Replica, place: usize, m: &[u8]) -> String {
    let says = read(m).map_or(String::new(), |message| format!("{}: ", said(m, &message)));
    let answer = answer_text(replica.deliver(m));
    format!("{place}: {says}{answer}; {}\n", reached_text(replica))
}

fn reached_text(replica: &Replica) -> String {
    let next = replica.next_host().unwrap_or(0); // valid: read from a snapshot
    format!(
        "version {} host {} next {next}",
        replica.version, replica.host
    )
}

fn answer_text(answer: Answer) -> String {
    match answer {
        Answer::Refused(number) => refused_text(number),
        Answer::Waits => "pending".to_string(),
        Answer::Applied { passed, noops } => format!("applied, {passed} versions, {noops} no-ops"),
    }
}

fn refused_text(number: u32) -> String {
    format!("refused {number} ({})", meaning(number))
}
