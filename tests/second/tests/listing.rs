//! The listing's output (01 "The listing"; 02 A3, A9).

mod common;
use common::*;
use second::listing::listing;
use second::random::{self, Rng};
use second::replica::Replica;

fn text(input: &[u8], more: bool) -> String {
    String::from_utf8(listing(input, more)).unwrap()
}

const T_LINES: &str =
    "version 5 host 100 next 200\nplayer 100 1 0\nplayer 200 3 0\ngroup 300 4 0\n";

#[test]
fn the_example_byte_for_byte() {
    let input = framed(&snapshot_t(), &[destroy_player(100, 7), add_player(400, 6)]);
    let expected = "version 7 host 0 next 200\nplayer 200 3 0\ngroup 300 4 0\nplayer 400 6 0\n";
    assert_eq!(text(&input, false), expected);
    assert_eq!(text(&input, true), format!("{expected}cut\n"));
}

#[test]
fn snapshot_alone() {
    assert_eq!(text(&snapshot_t(), false), T_LINES);
    assert_eq!(text(&nameless_t(), false), T_LINES);
    let fresh = written_snapshot(&Replica::fresh());
    assert_eq!(text(&fresh, false), "version 0 host 0 next 0\n");
}

#[test]
fn refused_snapshots_print_one_line() {
    let t = snapshot_t();
    for length in 0..t.len() {
        assert_eq!(text(&t[..length], false), "refused 21\n");
        assert_eq!(text(&t[..length], true), "refused 21\n");
    }
    let mut other_format = framed(&t, &[add_player(400, 6)]);
    other_format[4] = 3;
    other_format.push(0);
    assert_eq!(text(&other_format, true), "refused 22\n");
    assert_eq!(text(&[0, 0, 0, 3, 2, 0, 0, 0, 0, 0], false), "refused 21\n");
    assert_eq!(text(&[0xFF; 100], false), "refused 21\n");
}

#[test]
fn tails_are_cut() {
    let whole = framed(&snapshot_t(), &[add_player(400, 6)]);
    for length in snapshot_t().len() + 1..whole.len() {
        assert_eq!(text(&whole[..length], false), format!("{T_LINES}cut\n"));
    }
    assert_eq!(
        text(&[snapshot_t(), vec![0xFF; 4]].concat(), false),
        format!("{T_LINES}cut\n")
    );
    assert_eq!(
        text(&[snapshot_t(), vec![0xFF; 4]].concat(), true),
        format!("{T_LINES}cut\n")
    );
}

#[test]
fn refused_messages_print_nothing() {
    let refused = [
        vec![],
        vec![1],
        vec![0; 16_385],
        add_player(400, 5),
        le(&[0xD3, 0, 1, 1]),
    ];
    assert_eq!(text(&framed(&snapshot_t(), &refused), false), T_LINES);
}

#[test]
fn a_noop_moves_the_version() {
    let input = framed(&snapshot_t(), &[add_player(100, 6)]);
    assert_eq!(
        text(&input, false),
        T_LINES.replace("version 5", "version 6")
    );
}

#[test]
fn waiting_operations_are_not_shown() {
    let input = framed(&snapshot_t(), &[add_player(400, 7)]);
    assert_eq!(text(&input, false), T_LINES);
}

#[test]
fn input_at_and_past_the_limit() {
    let mut input = framed(&snapshot_t(), &[add_player(400, 6)]);
    let rest = 65_536 - input.len() - 4;
    input = framed(&input, &[vec![0; rest]]);
    assert_eq!(input.len(), 65_536);
    let expected = T_LINES.replace("version 5", "version 6") + "player 400 6 0\n";
    assert_eq!(text(&input, false), expected);
    assert_eq!(text(&input, true), format!("{expected}cut\n"));
    let longer = framed(&input, &[add_player(500, 7)]);
    assert_eq!(text(&longer, false), format!("{expected}cut\n"));
}

#[test]
fn large_numbers() {
    let entries = vec![entry(1, u32::MAX, u32::MAX)];
    let replica = Replica {
        version: u32::MAX,
        entries,
        ..Replica::fresh()
    };
    let expected = "version 4294967295 host 0 next 4294967295\nplayer 4294967295 4294967295 0\n";
    assert_eq!(text(&written_snapshot(&replica), false), expected);
}

/// Characters, not bytes and not units, and of what is kept: 40 pairs are cut to
/// 15 of them and a half.
#[test]
fn counts_of_characters() {
    let messages = [
        add_named(400, 6, &units("Ann")),
        add_named(401, 7, &[0x41; 40]),
        add_named(402, 8, &units("\u{1F600}!")),
        add_named(403, 9, &[]),
        create_named(404, 10, &units(&"\u{1F600}".repeat(40))),
        create_named(405, 11, &[0xDE00, 0xD83D]),
    ];
    let expected = T_LINES.replace("version 5", "version 11")
        + "player 400 6 3\nplayer 401 7 31\nplayer 402 8 2\nplayer 403 9 0\n"
        + "group 404 10 16\ngroup 405 11 2\n";
    assert_eq!(text(&framed(&snapshot_t(), &messages), false), expected);
}

/// Of names that the snapshot has.
#[test]
fn counts_of_saved_names() {
    let mut replica = replica_t();
    replica.entries[0].name = units("Ann \u{1F600}\u{10FFFF}");
    replica.entries[1].name = units(&"\u{10000}".repeat(15));
    replica.entries[2].name = vec![0xD83D, 0x41, 0xDE00];
    let expected = "version 5 host 100 next 200\nplayer 100 1 6\nplayer 200 3 15\ngroup 300 4 3\n";
    assert_eq!(text(&written_snapshot(&replica), false), expected);
}

/// The longest there is: 64 entries of ten digits and 31 units each, and cut.
#[test]
fn longest_listing() {
    let last = u32::MAX - 100;
    let each = (0..64).map(|k| named_entry(1, last + k, last + k, &[0x41; 31]));
    let replica = Replica {
        version: u32::MAX,
        host: last,
        entries: each.collect(),
        ..Replica::fresh()
    };
    let input = [written_snapshot(&replica), vec![0]].concat();
    let output = text(&input, false);
    assert!(output.contains("player 4294967195 4294967195 31\n"));
    assert_eq!(output.len(), 2_103);
}

#[test]
fn shape_of_every_output() {
    let mut rng = Rng::new(51);
    let (mut refused, mut cut, mut long) = (0, 0, 0);
    for _ in 0..5_000 {
        let input = random::framed_input(&mut rng);
        let output = text(&input, false);
        long += u32::from(input.len() > 65_536);
        assert!(output.ends_with('\n') && output.matches("cut").count() <= 1);
        if output.starts_with("refused") {
            assert_eq!(output.lines().count(), 1);
            refused += 1;
        } else {
            assert!(output.starts_with("version "));
            assert!(input.len() <= 65_536 || output.ends_with("\ncut\n"));
            cut += u32::from(output.ends_with("cut\n"));
        }
        let taken = &input[..input.len().min(65_536)];
        assert_eq!(text(taken, input.len() > 65_536), output);
    }
    assert!(
        refused > 100 && cut > 100 && long > 10,
        "{refused} {cut} {long}"
    );
}
