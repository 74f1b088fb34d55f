//! The programs `decode` and `trace`, run on whole inputs: all that they write is compared, byte for byte.

use crate::comparison::{Call, Comparison, Verdict};
use crate::messages::any_message;
use crate::outcome::Ran;
use crate::shown::PROGRAMS;
use crate::snapshots::damaged_snapshot;
use crate::traffic::deliveries;
use second::random::{self, Rng};
use second::{decode, framing, snapshot, trace};
use std::io::{self, Write};
use std::path::{Path, PathBuf};
use std::process::{Command, Output, Stdio};

/// Messages of an input, at least and at most; those that fill it up to the limit come on top.
const LEAST: usize = 200;
const MOST: usize = 2_000;

/// The folder of the programs, if not each its crate's own, and how often they were run: which decides on the kind of the next input.
pub struct Programs {
    folder: Option<PathBuf>,
    runs: usize,
}

/// How an input goes, in turn: so a few runs have all of it.
enum Kind {
    Whole,
    Tail,
    PastLimit,
    /// With this number of the snapshot; of no meaning to `decode`.
    Refused(u32),
}

impl Programs {
    /// Those of the folder that DP8_BIN names, or of their crates; or which one is not there.
    pub fn find() -> Result<Programs, String> {
        let folder = std::env::var_os("DP8_BIN").map(PathBuf::from);
        let programs = Programs { folder, runs: 0 };
        for program in PROGRAMS {
            let path = programs.path(program);
            if !path.is_file() {
                return Err(format!("{} is not there", path.display()));
            }
        }
        Ok(programs)
    }

    fn path(&self, program: &str) -> PathBuf {
        match &self.folder {
            Some(folder) => folder.join(program),
            None => format!("crates/{program}/out/{program}").into(),
        }
    }

    /// An input for each of the programs.
    pub fn compare(&mut self, c: &mut Comparison, rng: &mut Rng) -> Verdict {
        let kind = self.next_kind();
        self.compare_decode(c, &decode_input(rng, &kind))?;
        self.compare_trace(c, &trace_input(rng, &kind))
    }

    fn next_kind(&mut self) -> Kind {
        let run = self.runs;
        self.runs += 1;
        match run % 4 {
            0 => Kind::Whole,
            1 => Kind::Tail,
            2 => Kind::PastLimit,
            _ => Kind::Refused(21 + (run / 4 % 6) as u32),
        }
    }

    fn compare_decode(&self, c: &mut Comparison, input: &[u8]) -> Verdict {
        let text = decode::decode(input);
        let messages = count(framing::taken(input, decode::MAX_INPUT).0);
        c.shown.note("decode", messages, &text);
        let expected = c.expected_text(text);
        self.compare_run(c, ("decode", Call::Decode, 0), input, &expected)
    }

    fn compare_trace(&self, c: &mut Comparison, input: &[u8]) -> Verdict {
        let text = trace::trace(input);
        let number = refused_number(&text);
        let messages = match number {
            0 => count(framing::split_snapshot(framing::taken(input, trace::MAX_INPUT).0).1),
            _ => 0,
        };
        c.shown.note("trace", messages, &text);
        let expected = c.expected_text(text);
        self.compare_run(c, ("trace", Call::Trace, number), input, &expected)
    }

    /// The program must end well, write this text and nothing on standard error.
    fn compare_run(
        &self,
        c: &mut Comparison,
        (program, call, number): (&str, Call, u32),
        input: &[u8],
        expected: &[u8],
    ) -> Verdict {
        let output = run(&self.path(program), input);
        // A program that cannot be run, or is ended by a signal, has no status of its own.
        let (status, errors, text) = match &output {
            Ok(o) => (
                o.status.code().unwrap_or(255),
                o.stderr.len(),
                &o.stdout[..],
            ),
            Err(_) => (255, 0, &[][..]),
        };
        let proved = Ran {
            status: status as u64,
            errors,
            text,
        };
        let second = Ran {
            status: 0,
            errors: 0,
            text: expected,
        };
        let show = || format!("{}\n{}", lines_apart(text, expected), kept(program, input));
        c.same((call, number), show, proved, second)
    }
}

/// Gives the input to a program and takes all that it writes. A program that has read enough may leave the rest.
fn run(program: &Path, input: &[u8]) -> io::Result<Output> {
    let mut child = Command::new(program)
        .stdin(Stdio::piped())
        .stdout(Stdio::piped())
        .stderr(Stdio::piped())
        .spawn()?;
    let stdin = child.stdin.take();
    std::thread::scope(|scope| {
        scope.spawn(move || stdin.map(|mut pipe| pipe.write_all(input)));
        child.wait_with_output()
    })
}

/// The first line that differs, as both sides have it.
fn lines_apart(proved: &[u8], second: &[u8]) -> String {
    let mut own = proved.split(|b| *b == b'\n');
    let mut others = second.split(|b| *b == b'\n');
    let mut number = 1;
    loop {
        let pair = (own.next(), others.next());
        if pair.0 != pair.1 || pair.0.is_none() {
            let show = |line: Option<&[u8]>| {
                let line = line.unwrap_or(b"(no such line)");
                String::from_utf8_lossy(&line[..line.len().min(400)]).into_owned()
            };
            let (own, other) = (show(pair.0), show(pair.1));
            return format!("line {number}\n  proved: {own}\n  second: {other}");
        }
        number += 1;
    }
}

/// Where the input of a difference is kept: it is too long to be shown.
fn kept(program: &str, input: &[u8]) -> String {
    let path = format!("target/compare/{program}.input");
    let done =
        std::fs::create_dir_all("target/compare").and_then(|()| std::fs::write(&path, input));
    match done {
        Ok(()) => format!("kept in {path}"),
        Err(error) => format!("not kept in {path}: {error}"),
    }
}

/// Whole messages of an input, for the report alone.
fn count(input: &[u8]) -> usize {
    framing::messages(input).0.len()
}

/// The number of a line `snapshot: refused N (..)`, 0 where there is none.
fn refused_number(text: &[u8]) -> u32 {
    let start = String::from_utf8_lossy(&text[..text.len().min(60)]);
    let number = start.strip_prefix("snapshot: refused ");
    let digits = number.and_then(|rest| rest.split(' ').next());
    digits.and_then(|digits| digits.parse().ok()).unwrap_or(0)
}

/// Messages of any kind; `decode` knows no replica.
fn decode_input(rng: &mut Rng, kind: &Kind) -> Vec<u8> {
    let mut input = Vec::new();
    for _ in 0..rng.between(LEAST, MOST) {
        let m = match rng.below(40) {
            0..=19 => random::message(rng, 100),
            20..=38 => any_message(rng),
            _ => random::typed_noise(rng),
        };
        random::append_frame(&mut input, &m);
    }
    end(rng, kind, &mut input);
    input
}

/// A snapshot and messages for its replica.
fn trace_input(rng: &mut Rng, kind: &Kind) -> Vec<u8> {
    let mut input = random::snapshot(rng);
    let start = snapshot::read(&input).unwrap_or_default();
    let messages = rng.between(LEAST, MOST);
    for m in deliveries(rng, &start, messages) {
        random::append_frame(&mut input, &m);
    }
    end(rng, kind, &mut input);
    match kind {
        Kind::Refused(number) => refused(rng, *number, &input),
        _ => input,
    }
}

fn end(rng: &mut Rng, kind: &Kind, input: &mut Vec<u8>) {
    match kind {
        Kind::Whole => {}
        Kind::Tail | Kind::Refused(_) => random::cut_tail(rng, input),
        Kind::PastLimit => random::fill_to_limit(rng, input, trace::MAX_INPUT),
    }
}

/// The same messages behind a snapshot that is refused with this number.
fn refused(rng: &mut Rng, number: u32, input: &[u8]) -> Vec<u8> {
    let messages = framing::split_snapshot(input).1;
    loop {
        let changed = [&damaged_snapshot(rng), messages].concat();
        let first = framing::split_snapshot(&changed).0;
        if snapshot::read(first) == Err(number) {
            return changed;
        }
    }
}
