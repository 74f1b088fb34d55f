//! The output of `trace`, against text worked out by hand.

mod common;
use common::*;
use second::replica::Replica;
use second::trace::trace;

fn text(input: &[u8]) -> String {
    String::from_utf8(trace(input)).unwrap()
}

const T_LINES: &str = "snapshot: version 5 host 100 next 200\n\
    player 100 version 1 owner 0 flags 0 dnet 7 name \"\" 0\n\
    player 200 version 3 owner 0 flags 0 dnet 7 name \"\" 0\n\
    group 300 version 4 owner 0 flags 0 dnet 7 name \"\" 0\n\
    member 300 200\n";

#[test]
fn the_example() {
    let leaves = le(&[0xD1, 100, 7, 0, 0]);
    let expected = format!(
        "{T_LINES}\
         1: 0xD1 destroy player dpnid 100 version 7 not-used 0 reason 0: pending; version 5 host 100 next 200\n\
         2: 0xD0 add player dpnid 400 owner 0 flags 0 version 6 not-used 0 dnet 7: applied, 2 versions, 0 no-ops; \
         version 7 host 0 next 200\n"
    );
    let input = framed(&snapshot_t(), &[leaves, add_player(400, 6)]);
    assert_eq!(text(&input), expected);
}

#[test]
fn snapshots() {
    assert_eq!(text(&snapshot_t()), T_LINES);
    let fresh = written_snapshot(&Replica::fresh());
    assert_eq!(text(&fresh), "snapshot: version 0 host 0 next 0\n");
    let mut largest = entry(2, 9, 4);
    (largest.owner, largest.flags, largest.dnet_version) = (u32::MAX, 256, 0);
    let replica = Replica {
        version: u32::MAX,
        entries: vec![largest],
        ..Replica::fresh()
    };
    let expected = "snapshot: version 4294967295 host 0 next 0\n\
        group 9 version 4 owner 4294967295 flags 256 dnet 0 name \"\" 0\n";
    assert_eq!(text(&written_snapshot(&replica)), expected);
}

/// As `decode` shows a message's name: what is not plain is escaped, halves of
/// a pair each; and behind it how many characters it has.
#[test]
fn names_of_entries() {
    let mut replica = replica_t();
    replica.entries[0].name = units("Ann");
    replica.entries[1].name = units("\"\\ \u{e9}\u{1F600}");
    replica.entries[2].name = vec![0xD800, 0x7F, 0x7E];
    let names = [
        "\"Ann\" 3",
        "\"\\u0022\\u005C \\u00E9\\uD83D\\uDE00\" 5",
        "\"\\uD800\\u007F~\" 3",
    ];
    let mut expected = T_LINES.to_string();
    for name in names {
        expected = expected.replacen("\"\" 0", name, 1);
    }
    assert_eq!(text(&written_snapshot(&replica)), expected);
    assert_eq!(text(&nameless_t()), T_LINES);
}

/// Nothing more is shown, not even that a tail was dropped.
#[test]
fn refused_snapshots() {
    let t = snapshot_t();
    let changed = |at: usize, value: u8| {
        let mut bytes = framed(&t, &[add_player(400, 6), vec![]]);
        bytes[at] = value;
        bytes.push(0);
        text(&bytes)
    };
    assert_eq!(text(&[]), "snapshot: refused 21 (snapshot length)\n");
    assert_eq!(text(&t[..88]), "snapshot: refused 21 (snapshot length)\n");
    assert_eq!(changed(4, 3), "snapshot: refused 22 (snapshot format)\n");
    assert_eq!(changed(14, 2), "snapshot: refused 23 (snapshot counts)\n");
    assert_eq!(changed(15, 3), "snapshot: refused 24 (snapshot entry)\n");
    assert_eq!(changed(12, 99), "snapshot: refused 25 (snapshot host)\n");
    assert_eq!(
        changed(88, 100 + 99),
        "snapshot: refused 26 (snapshot membership)\n"
    );
}

/// A message that reading refuses has no part that says what it is.
#[test]
fn each_kind_of_answer() {
    let at = "; version 5 host 100 next 200";
    let player = |id: u32, version: u32| {
        format!("0xD0 add player dpnid {id} owner 0 flags 0 version {version} not-used 0 dnet 7: ")
    };
    let input = framed(
        &snapshot_t(),
        &[
            vec![],
            le(&[0xFF]),
            le(&[0xD3, 0, 300, 200]),
            add_player(400, 5),
            add_player(400, 38),
            add_player(400, 7),
            add_player(400, 7),
            add_player(401, 7),
            add_player(200, 6),
        ],
    );
    let expected = [
        T_LINES.to_string(),
        format!("1: refused 2 (message under 4 bytes){at}\n"),
        format!("2: refused 3 (type not listed){at}\n"),
        format!("3: 0xD3 request add to group context 0 group 300 player 200: refused 13 (no operation){at}\n"),
        format!("4: {}refused 14 (version already passed){at}\n", player(400, 5)),
        format!("5: {}refused 15 (version more than 32 ahead){at}\n", player(400, 38)),
        format!("6: {}pending{at}\n", player(400, 7)),
        format!("7: {}refused 16 (already pending){at}\n", player(400, 7)),
        format!(
            "8: {}refused 17 (another operation of this version is pending){at}\n",
            player(401, 7)
        ),
        format!(
            "9: {}applied, 2 versions, 1 no-ops; version 7 host 100 next 200\n",
            player(200, 6)
        ),
    ];
    assert_eq!(text(&input), expected.concat());
}

#[test]
fn fields_are_shown_as_decode_shows_them() {
    let mut m = le(&[0xD0, 400, 0, 0, 6, 0, 7, 48, 4, 0, 0, 0, 0]);
    m.extend([0x22, 0, 0, 0]);
    let expected = format!(
        "{T_LINES}1: 0xD0 add player dpnid 400 owner 0 flags 0 version 6 not-used 0 dnet 7 name \"\\u0022\" 1: \
         applied, 1 versions, 0 no-ops; version 6 host 100 next 200\n"
    );
    assert_eq!(text(&framed(&snapshot_t(), &[m])), expected);
}

#[test]
fn tails_and_the_limit() {
    let whole = framed(&snapshot_t(), &[add_player(400, 5)]);
    let start = snapshot_t().len();
    for length in [start + 1, start + 3, start + 4, whole.len() - 1] {
        assert_eq!(text(&whole[..length]), format!("{T_LINES}cut\n"));
    }
    let rest = 1_048_576 - start - 4;
    let full = framed(&snapshot_t(), &[vec![0; rest]]);
    let expected =
        format!("{T_LINES}1: refused 1 (message over 16384 bytes); version 5 host 100 next 200\n");
    assert_eq!(full.len(), 1_048_576);
    assert_eq!(text(&full), expected);
    let longer = framed(&full, &[add_player(400, 6)]);
    assert_eq!(text(&longer), format!("{expected}cut\n"));
}
