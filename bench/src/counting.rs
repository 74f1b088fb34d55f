//! Instructions of a call, counted by valgrind. The program runs itself under it with N calls and with 2N, all else the same: the
//! difference is N calls.

use std::process::Command;

/// N, and that of calls that take 64 messages each.
pub const CALLS: usize = 100;
pub const FEW_CALLS: usize = 10;

/// Arguments of a run of one side of a row: `calls ROW SIDE N`.
pub const CALLS_WORD: &str = "calls";
pub const SIDES: [&str; 2] = ["proved", "second"];

/// What the calls of a run are prepared for, whether or not they are made, so that preparing is no part of the difference.
pub const PREPARED: usize = 2 * CALLS;

/// Counts both sides of each row with its N, and prints a table in Markdown.
pub fn print(rows: &[(String, usize)]) {
    println!("| call | proved, instructions | second, instructions | proved / second |");
    println!("|---|---:|---:|---:|");
    for (name, calls) in rows {
        let [own, other] = SIDES.map(|side| per_call(name, side, *calls));
        let ratio = own as f64 / other as f64;
        println!("| {name} | {own} | {other} | {ratio:.2} |");
    }
}

fn per_call(name: &str, side: &str, calls: usize) -> u64 {
    let (once, twice) = (counted(name, side, calls), counted(name, side, 2 * calls));
    (twice - once + calls as u64 / 2) / calls as u64
}

/// The instructions of a whole run.
fn counted(name: &str, side: &str, calls: usize) -> u64 {
    let own = std::env::current_exe().expect("this program has a path");
    let output = Command::new("valgrind")
        .args(["--tool=callgrind", "--callgrind-out-file=/dev/null"])
        .arg(own)
        .args([CALLS_WORD, name, side, &calls.to_string()])
        .output()
        .expect("valgrind runs");
    let said = String::from_utf8_lossy(&output.stderr);
    let count = said
        .lines()
        .find_map(|line| line.split("Collected : ").nth(1));
    match count.and_then(|count| count.trim().parse().ok()) {
        Some(count) if output.status.success() => count,
        _ => panic!("valgrind counted nothing:\n{said}"),
    }
}
