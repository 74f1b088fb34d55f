//! The comparison itself: each call's outcome on both sides, how often each number was seen, and the first difference.

use crate::events::{Events, Halves};
use crate::outcome::{Outcome, Places};
use crate::shown::Shown;
use second::random::Rng;
use std::fmt;

#[derive(Clone, Copy, Debug, PartialEq, Eq)]
pub enum Call {
    Read,
    WriteConnectInfo,
    WriteAddPlayer,
    WriteDestroyPlayer,
    WriteRequest,
    WriteCreateGroup,
    WriteDestroyGroup,
    WriteAddToGroup,
    WriteDeleteFromGroup,
    Fresh,
    IsValid,
    Deliver,
    Batch,
    Record,
    OneByOne,
    Replay,
    NextHost,
    NameCharacters,
    SnapshotRead,
    SnapshotWrite,
    Listing,
    Decode,
    Trace,
}

/// Each call's name and the numbers that it can answer: a full run must see each of them. An invalid replica counts as 28 of
/// `dp8_replica_is_valid`, a listing that says `refused N`, or a trace that says it of the snapshot, as N. `Record` stands for what a
/// batch puts into a record, `OneByOne` for batches against `dp8_replica_deliver` in place of the second implementation, `Replay` for
/// deliveries and batches in turn against its replay.
const CALLS: [(Call, &str, &[usize]); 23] = [
    (Call::Read, "dp8_read", &[0, 1, 2, 3, 4, 5, 6, 7, 8, 9, 10]),
    (
        Call::WriteConnectInfo,
        "dp8_write_connect_info",
        &[0, 11, 12],
    ),
    (Call::WriteAddPlayer, "dp8_write_add_player", &[0, 11, 12]),
    (
        Call::WriteDestroyPlayer,
        "dp8_write_destroy_player",
        &[0, 11, 12],
    ),
    (
        Call::WriteRequest,
        "dp8_write_request_add_to_group",
        &[0, 11, 12],
    ),
    (
        Call::WriteCreateGroup,
        "dp8_write_create_group",
        &[0, 11, 12],
    ),
    (
        Call::WriteDestroyGroup,
        "dp8_write_destroy_group",
        &[0, 11, 12],
    ),
    (
        Call::WriteAddToGroup,
        "dp8_write_add_to_group",
        &[0, 11, 12],
    ),
    (
        Call::WriteDeleteFromGroup,
        "dp8_write_delete_from_group",
        &[0, 11, 12],
    ),
    (Call::Fresh, "dp8_replica_fresh", &[0]),
    (Call::IsValid, "dp8_replica_is_valid", &[0, 28]),
    (
        Call::Deliver,
        "dp8_replica_deliver",
        &[0, 1, 2, 3, 4, 5, 6, 7, 8, 9, 10, 13, 14, 15, 16, 17, 28],
    ),
    (Call::Batch, "dp8_replica_batch", &[0, 28, 29]),
    (
        Call::Record,
        "a record of dp8_replica_batch",
        &[0, 1, 2, 3, 4, 5, 6, 7, 8, 9, 10, 13, 14, 15, 16, 17],
    ),
    (Call::OneByOne, "batches against one by one", &[0]),
    (Call::Replay, "batches against the replay", &[0]),
    (Call::NextHost, "dp8_replica_next_host", &[0, 28]),
    (Call::NameCharacters, "dp8_name_characters", &[0]),
    (
        Call::SnapshotRead,
        "dp8_snapshot_read",
        &[0, 21, 22, 23, 24, 25, 26],
    ),
    (Call::SnapshotWrite, "dp8_snapshot_write", &[0, 27, 28]),
    (Call::Listing, "dp8_listing", &[0, 21, 22, 23, 24, 25, 26]),
    (Call::Decode, "the program decode", &[0]),
    (
        Call::Trace,
        "the program trace",
        &[0, 21, 22, 23, 24, 25, 26],
    ),
];

/// Numbers run from 0 to 29, which is of paper 02; 18 to 20 stand for nothing in paper 01.
const NUMBERS: usize = 30;

pub struct Difference {
    call: &'static str,
    place: String,
    input: String,
}

impl fmt::Display for Difference {
    fn fmt(&self, f: &mut fmt::Formatter) -> fmt::Result {
        writeln!(f, "DIFFERENCE in {}", self.call)?;
        writeln!(f, "  first place: {}", self.place)?;
        write!(f, "  input: {}", self.input)
    }
}

pub type Verdict = Result<(), Difference>;

#[derive(Default)]
pub struct Comparison {
    /// Messages that were read and delivered; those of a listing's input are counted apart, and so are those of batches, of a
    /// program's input, and those that lead to a target.
    pub messages: u64,
    pub listed_messages: u64,
    pub batched_messages: u64,
    pub progress_messages: u64,
    /// What the programs were given, and what their lines show.
    pub shown: Shown,
    calls: u64,
    seen: [[u64; NUMBERS]; CALLS.len()],
    events: Events,
    /// The call whose outcome is made wrong, to show that the comparison can fail.
    plant: Option<u64>,
    /// The program run of whose text one byte is made wrong, likewise.
    plant_text: Option<u64>,
    texts: u64,
    proved: Places,
    second: Places,
}

impl Comparison {
    pub fn new(plant: Option<u64>, plant_text: Option<u64>) -> Comparison {
        Comparison {
            plant,
            plant_text,
            ..Comparison::default()
        }
    }

    /// Compares one call's outcomes; `number` is the second implementation's.
    pub fn same<T: Outcome>(
        &mut self,
        (call, number): (Call, u32),
        input: impl Fn() -> String,
        proved: T,
        second: T,
    ) -> Verdict {
        self.calls += 1;
        self.seen[call as usize][number as usize] += 1;
        self.proved.fill(&proved);
        self.second.fill(&second);
        if self.plant == Some(self.calls) {
            self.proved.flip_one(&mut Rng::new(self.calls));
        }
        if self.proved == self.second {
            return Ok(());
        }
        Err(Difference {
            call: CALLS[call as usize].1,
            place: self.proved.difference(&self.second),
            input: input(),
        })
    }

    /// What a program is to write; one byte of it wrong where this run is the one.
    pub fn expected_text(&mut self, mut text: Vec<u8>) -> Vec<u8> {
        self.texts += 1;
        if self.plant_text == Some(self.texts) && !text.is_empty() {
            let mut rng = Rng::new(self.texts);
            let at = rng.below(text.len());
            text[at] ^= 1 << rng.below(8);
        }
        text
    }

    /// Notes the number that a batch puts into a record.
    pub fn record(&mut self, number: u32) {
        self.seen[Call::Record as usize][number as usize] += 1;
    }

    pub fn event(&mut self, name: &'static str) {
        self.events.note(name);
    }

    /// Of a message of that type.
    pub fn typed_event(&mut self, kind: u8, name: &'static str) {
        self.events.note_typed(kind, name);
    }

    /// Of a field of a form, by their places in `FIELDS`.
    pub fn field_event(&mut self, place: (usize, usize), name: &'static str) {
        self.events.note_field(place, name);
    }

    /// Which of `HALVES` the units of a text of `TEXTS` have.
    pub fn halves_event(&mut self, text: (&'static str, &'static str), found: Halves) {
        self.events.note_halves(text, found);
    }

    /// Whether the call or the text that is to be made wrong was not reached.
    pub fn plant_left(&self) -> bool {
        let left = |plant: Option<u64>, count| plant.is_some_and(|p| p > count || p == 0);
        left(self.plant, self.calls) || left(self.plant_text, self.texts)
    }

    /// What a full run should have seen and this one did not.
    pub fn unseen(&self) -> Vec<String> {
        let mut missing = Vec::new();
        for (call, name, numbers) in CALLS {
            let unseen = numbers
                .iter()
                .filter(|n| self.seen[call as usize][**n] == 0);
            missing.extend(unseen.map(|n| format!("{name} answering {n}")));
        }
        missing.extend(self.events.unseen());
        missing.extend(self.shown.unseen());
        missing
    }
}

/// How many messages and calls were compared, and how often each number was seen.
impl fmt::Display for Comparison {
    fn fmt(&self, f: &mut fmt::Formatter) -> fmt::Result {
        writeln!(f, "messages compared: {}", self.messages)?;
        writeln!(f, "messages inside listed inputs: {}", self.listed_messages)?;
        writeln!(f, "messages inside batches: {}", self.batched_messages)?;
        writeln!(f, "messages towards a target: {}", self.progress_messages)?;
        writeln!(f, "calls compared: {}", self.calls)?;
        for (call, name, _) in CALLS {
            let seen = &self.seen[call as usize];
            write!(f, "  {name:<31}{:>9}  ", seen.iter().sum::<u64>())?;
            let numbers = seen.iter().enumerate().filter(|(_, count)| **count > 0);
            let shown: Vec<String> = numbers.map(|(n, count)| format!("{n}: {count}")).collect();
            writeln!(f, "{}", shown.join(", "))?;
        }
        writeln!(f, "how often each number was seen:")?;
        for n in 0..NUMBERS {
            let count: u64 = self.seen.iter().map(|of_call| of_call[n]).sum();
            let note = if (18..=20).contains(&n) {
                "  (not in paper 01)"
            } else {
                ""
            };
            writeln!(f, "  {n:>2} {count:>9}{note}")?;
        }
        writeln!(f, "what else was seen:")?;
        write!(f, "{}{}", self.events, self.shown)
    }
}

/// Bytes as hexadecimal digits; of gigabytes the first and how many.
pub fn hex(bytes: &[u8]) -> String {
    if bytes.len() > 1 << 20 {
        return format!("{} .. {} bytes", hex(&bytes[..64]), bytes.len());
    }
    let digits = bytes.iter().map(|b| format!("{b:02x}"));
    digits.collect()
}
