//! compare [--seconds N | --messages N] [--seed S] [--plant N | --plant-text N]
//!
//! Compares the proved library, through its C interface, and the programs `decode` and `trace` with the second implementation. The same
//! seed and the same number of messages give the same run; the default is seed 1 and 500,000 messages. A run of 200,000 or more also
//! fails where a number that a call can answer was never seen. To show that a difference is found, `--plant N` makes the outcome of call
//! N wrong, and `--plant-text N` one byte of what is expected of the Nth run of a program (odd ones are of `decode`, even ones of `trace`).
//!
//! Exit status: 0 all the same; 1 a difference; 2 wrong arguments; 3 something was never seen, or what to make wrong never came; 4 a
//! program is not there.

use compare::comparison::{Comparison, Verdict};
use compare::programs::Programs;
use compare::{aimed, batches, characters, groups, huge, listings, messages, names, replicas};
use compare::{progress, snapshots, versions, writers, wrong_names, wrong_operations};
use second::random::Rng;
use std::process::ExitCode;
use std::time::{Duration, Instant};

/// So many messages are compared where nothing else is asked for; so many make a full run.
const DEFAULT: u64 = 500_000;
const FULL: u64 = 200_000;
const MESSAGES_IN_A_RUN: usize = 40;
/// The programs are run once in so many rounds: some 70 times each in the default run, and 24 at least in a full one,
/// so that they have had every kind of input.
const ROUNDS_TO_A_PROGRAM: usize = 60;

struct Arguments {
    seconds: Option<u64>,
    messages: u64,
    seed: u64,
    plant: Option<u64>,
    plant_text: Option<u64>,
}

fn arguments() -> Option<Arguments> {
    let words: Vec<String> = std::env::args().skip(1).collect();
    let (mut seconds, mut messages, mut seed) = (None, None, 1);
    let (mut plant, mut plant_text) = (None, None);
    for pair in words.chunks(2) {
        let value: u64 = pair.get(1)?.parse().ok()?;
        match pair[0].as_str() {
            "--seconds" => seconds = Some(value),
            "--messages" => messages = Some(value),
            "--seed" => seed = value,
            "--plant" => plant = Some(value),
            "--plant-text" => plant_text = Some(value),
            _ => return None,
        }
    }
    let both = seconds.is_some() && messages.is_some();
    (!both).then_some(Arguments {
        seconds,
        messages: messages.unwrap_or(DEFAULT),
        seed,
        plant,
        plant_text,
    })
}

fn main() -> ExitCode {
    let Some(arguments) = arguments() else {
        eprintln!("compare [--seconds N | --messages N] [--seed S] [--plant N | --plant-text N]");
        return ExitCode::from(2);
    };
    let mut programs = match Programs::find() {
        Ok(programs) => programs,
        Err(missing) => {
            println!("FAILED: {missing}");
            return ExitCode::from(4);
        }
    };
    let mut c = Comparison::new(arguments.plant, arguments.plant_text);
    let started = Instant::now();
    let outcome = compare_all(&mut c, &mut programs, &arguments, started);
    print!("{c}");
    println!("seconds: {:.1}", started.elapsed().as_secs_f64());
    println!("seed: {}", arguments.seed);
    match outcome {
        Err(difference) => {
            println!("{difference}");
            println!("FAILED: the two implementations differ, or a difference was planted");
            ExitCode::from(1)
        }
        Ok(()) => ExitCode::from(judge(&c)),
    }
}

/// After a run without a difference: what should have come and did not.
fn judge(c: &Comparison) -> u8 {
    if c.plant_left() {
        println!("FAILED: what was to be made wrong never came");
        return 3;
    }
    if c.messages < FULL {
        println!("ok: no difference (a short run: what was never seen is not judged)");
        return 0;
    }
    let unseen = c.unseen();
    for what in &unseen {
        println!("never seen: {what}");
    }
    if unseen.is_empty() {
        println!("ok: no difference");
        return 0;
    }
    println!("FAILED: a full run must see all of these");
    3
}

fn compare_all(
    c: &mut Comparison,
    programs: &mut Programs,
    arguments: &Arguments,
    started: Instant,
) -> Verdict {
    compare_once(c)?;
    let mut seeds = Rng::new(arguments.seed);
    for round in 0usize.. {
        let done = match arguments.seconds {
            Some(seconds) => started.elapsed() >= Duration::from_secs(seconds),
            None => c.messages >= arguments.messages,
        };
        if done {
            break;
        }
        let mut rng = Rng::new(seeds.draw());
        compare_round(c, &mut rng)?;
        if round.is_multiple_of(ROUNDS_TO_A_PROGRAM) {
            programs.compare(c, &mut rng)?;
        }
        // On top of the messages that are asked for, and last: all else of a run is as it would be without.
        let messages = c.messages;
        progress::compare_progress(c, &mut rng)?;
        c.progress_messages += c.messages - messages;
        c.messages = messages;
    }
    Ok(())
}

/// What needs no random values.
fn compare_once(c: &mut Comparison) -> Verdict {
    replicas::compare_fresh(c)?;
    messages::sweep(c)?;
    batches::compare_many(c)?;
    listings::compare_longest(c)?;
    if !huge::compare_huge(c)? {
        println!("left out: lengths of more than 32 bits (no address space for them)");
    }
    Ok(())
}

fn compare_round(c: &mut Comparison, rng: &mut Rng) -> Verdict {
    replicas::compare_run(c, rng, MESSAGES_IN_A_RUN)?;
    aimed::compare_aimed_run(c, rng, MESSAGES_IN_A_RUN)?;
    names::compare_waiting_name(c, rng)?;
    groups::compare_life(c, rng)?;
    groups::compare_full(c, rng)?;
    groups::compare_sent_again(c, rng)?;
    versions::compare_new_versions(c, rng)?;
    characters::compare_any_name(c, rng)?;
    wrong_names::compare_wrong_name(c, rng)?;
    wrong_operations::compare_wrong_operation(c, rng)?;
    replicas::compare_single(c, rng)?;
    batches::compare_single(c, rng)?;
    batches::compare_run(c, rng)?;
    for _ in 0..6 {
        replicas::compare_damaged(c, rng)?;
    }
    for _ in 0..9 {
        writers::compare_writer(c, rng)?;
    }
    for _ in 0..4 {
        snapshots::compare_snapshot(c, rng)?;
    }
    snapshots::compare_wrong_name(c, rng)?;
    listings::compare_listing(c, rng)
}
