//! What the programs `decode` and `trace` were given and what their lines show, so that a full run can be held to have seen all of it.

use crate::events::FIELDS;
use std::collections::BTreeMap;
use std::fmt;

pub const PROGRAMS: [&str; 2] = ["decode", "trace"];

/// The types as the lines name them.
const TYPES: [&str; 8] = [
    "0xC1", "0xD0", "0xD1", "0xD3", "0xD7", "0xD8", "0xD9", "0xDA",
];

/// Characters on both sides of each edge of what stands for itself, in bytes and in units.
const ESCAPES: [&str; 10] = [
    "\\x1F", "\\x22", "\\x5C", "\\x7F", "\\xFF", "\\u001F", "\\u0022", "\\u005C", "\\u007F",
    "\\uFFFF",
];

/// The fields of UTF-16 units.
const WIDE: [&str; 2] = ["name", "password"];

/// No line of a message is longer than some 358,000 bytes.
const LONG: usize = 350_000;

#[derive(Default)]
pub struct Shown {
    /// Runs and the messages in them, by program.
    runs: BTreeMap<&'static str, (u64, u64)>,
    /// How often a thing was shown.
    seen: BTreeMap<String, u64>,
}

impl Shown {
    /// Notes a run of a program: how many messages it was given, and all that it writes.
    pub fn note(&mut self, program: &'static str, messages: usize, text: &[u8]) {
        let run = self.runs.entry(program).or_default();
        *run = (run.0 + 1, run.1 + messages as u64);
        let text = String::from_utf8_lossy(text);
        let cut = text.ends_with("\ncut\n");
        self.see(program, if cut { "cut" } else { "not cut" });
        for line in text.lines().filter(|line| *line != "cut") {
            match program {
                "decode" => self.note_message(program, line),
                _ => self.note_trace(line),
            }
        }
    }

    fn see(&mut self, program: &str, what: impl fmt::Display) {
        *self.seen.entry(format!("{program}: {what}")).or_default() += 1;
    }

    /// A line of `trace`: a delivery's after its place, or one of the name table at the start.
    fn note_trace(&mut self, line: &str) {
        let Some((place, rest)) = line.split_once(": ") else {
            return self.note_start(line);
        };
        if place == "snapshot" {
            return;
        }
        self.note_message("trace", rest);
        if !rest.starts_with("refused ") {
            self.note_answer(rest);
        }
    }

    /// An entry's line ends in its name and how many characters this has.
    fn note_start(&mut self, line: &str) {
        let first = line.split(' ').next().unwrap_or_default();
        self.see("trace", format_args!("start line {first}"));
        let Some((_, name)) = line.split_once(" name ") else {
            return;
        };
        let pieces: Vec<&str> = name.split('"').collect();
        if pieces[1].is_empty() {
            self.see("trace", "start line with an empty name");
        }
        if has_pairs(pieces[1], pieces[2]) {
            self.see("trace", "start line with fewer characters than units");
        }
        for escape in ESCAPES.iter().filter(|e| name.contains(*e)) {
            self.see("trace", format_args!("start line with {escape}"));
        }
    }

    /// What a message says, or the number where reading refuses it.
    fn note_message(&mut self, program: &str, line: &str) {
        if line.len() > LONG {
            self.see(program, "a line of more than 350,000 bytes");
        }
        if let Some(number) = line.strip_prefix("refused ") {
            let number = number.split(' ').next().unwrap_or_default();
            self.see(program, format_args!("refused {number}"));
            return;
        }
        if let Some(of_type) = TYPES.iter().find(|t| line.starts_with(*t)) {
            self.see(program, of_type);
            self.note_fields(program, form(line), line);
        }
    }

    /// A quote inside a field is escaped, so the quotes of a line part what is outside of fields from what is inside.
    fn note_fields(&mut self, program: &str, form: &str, line: &str) {
        let pieces: Vec<&str> = line.split('"').collect();
        for (pair, behind) in pieces.chunks_exact(2).zip(pieces.iter().skip(2).step_by(2)) {
            let name = pair[0].rsplit(' ').nth(1).unwrap_or_default();
            self.see(
                program,
                format_args!("{form} with its {}", name.replace('-', " ")),
            );
            if WIDE.contains(&name) && has_pairs(pair[1], behind) {
                let what = format_args!("{form} with fewer characters than units in its {name}");
                self.see(program, what);
            }
            // Of a long field the start is enough.
            let content = pair[1].get(..200).unwrap_or(pair[1]);
            for escape in ESCAPES.iter().filter(|e| content.contains(*e)) {
                self.see(program, escape);
            }
        }
    }

    /// The answer to a message that is read stands behind its last field, before what the replica has reached.
    fn note_answer(&mut self, line: &str) {
        let outside = line.rsplit('"').next().unwrap_or_default();
        let before = outside.split("; version ").next().unwrap_or_default();
        let answer = before.rsplit(": ").next().unwrap_or_default();
        let words: Vec<&str> = answer.split(' ').collect();
        match words[..] {
            ["pending"] => self.see("trace", "pending"),
            ["applied,", "1", "versions,", _, "no-ops"] => self.see("trace", "applied alone"),
            ["applied,", _, "versions,", "0", "no-ops"] => self.see("trace", "applied, several"),
            ["applied,", _, "versions,", _, "no-ops"] => {
                self.see("trace", "applied, several, no-ops among them");
            }
            ["refused", number, ..] => self.see("trace", format_args!("refused {number}")),
            _ => {}
        }
    }

    /// What a full run should have shown and this one did not.
    pub fn unseen(&self) -> Vec<String> {
        let mut wanted = wanted();
        wanted.retain(|what| !self.seen.contains_key(what));
        wanted
    }
}

/// Whether a text of units has more of them than the count behind it says. An escaped unit has six bytes.
fn has_pairs(text: &str, behind: &str) -> bool {
    let count = behind.trim_start().split([' ', ':']).next();
    let count = count.and_then(|digits| digits.parse::<usize>().ok());
    let units = text.len() - 5 * text.matches("\\u").count();
    count.is_some_and(|count| count < units)
}

/// The form of a message, as `FIELDS` names it.
fn form(line: &str) -> &'static str {
    let dnet = line.split(" dnet ").nth(1).unwrap_or_default();
    let dnet = dnet.split([' ', ':']).next().unwrap_or_default();
    match (line.split(' ').next(), dnet.parse()) {
        (Some("0xC1"), Ok(0..=6u32)) => FIELDS[0].0,
        (Some("0xC1"), _) => FIELDS[1].0,
        (Some("0xD0"), _) => FIELDS[2].0,
        _ => FIELDS[3].0,
    }
}

fn wanted() -> Vec<String> {
    let mut wanted = Vec::new();
    for program in PROGRAMS {
        let mut want = |what: &str| wanted.push(format!("{program}: {what}"));
        TYPES.iter().chain(&ESCAPES).for_each(|what| want(what));
        for (form, fields) in FIELDS {
            for field in fields {
                want(&format!("{form} with its {field}"));
            }
            for field in fields.iter().filter(|field| WIDE.contains(field)) {
                want(&format!(
                    "{form} with fewer characters than units in its {field}"
                ));
            }
        }
        (1..=10).for_each(|n| want(&format!("refused {n}")));
        want("cut");
        want("not cut");
        want("a line of more than 350,000 bytes");
    }
    let of_trace = [
        "start line player",
        "start line group",
        "start line member",
        "start line with an empty name",
        "start line with fewer characters than units",
        "pending",
        "applied alone",
        "applied, several",
        "applied, several, no-ops among them",
    ];
    wanted.extend(of_trace.iter().map(|what| format!("trace: {what}")));
    // Those of units: a name has no others.
    let units = ESCAPES.iter().filter(|e| e.starts_with("\\u"));
    wanted.extend(units.map(|e| format!("trace: start line with {e}")));
    // 28 aside: a snapshot that is read gives a valid replica.
    wanted.extend((13..=17).map(|n| format!("trace: refused {n}")));
    wanted
}

impl fmt::Display for Shown {
    fn fmt(&self, f: &mut fmt::Formatter) -> fmt::Result {
        for (program, (runs, messages)) in &self.runs {
            writeln!(f, "runs of {program} compared: {runs}")?;
            writeln!(f, "messages in runs of {program}: {messages}")?;
        }
        for (what, count) in &self.seen {
            writeln!(f, "  {what}: {count}")?;
        }
        Ok(())
    }
}
