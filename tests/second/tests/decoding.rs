//! The output of `decode`, against text worked out by hand.

mod common;
use common::*;
use second::decode::decode;

fn text(messages: &[Vec<u8>]) -> String {
    String::from_utf8(decode(&framed(&[], messages))).unwrap()
}

/// Little-endian words, then bytes.
fn with_bytes(words: &[u32], bytes: &[u8]) -> Vec<u8> {
    [le(words), bytes.to_vec()].concat()
}

#[test]
fn messages_without_fields() {
    let said = text(&[
        le(&[0xD0, 400, 1, 2, 6, 3, 7, 0, 0, 0, 0, 0, 0]),
        le(&[0xD1, 100, 7, 5, 4]),
        le(&[0xD3, 9, 300, 200]),
        le(&[0xD7, 4, 9, 300, 1, 2, 6, 3, 7, 0, 0, 0, 0, 0, 0]),
        le(&[0xD8, 300, 7, 5, 4, u32::MAX]),
        le(&[0xD9, 300, 200, 8, 1, 100, u32::MAX]),
        le(&[0xDA, 300, 200, 9, 2, 0, 1]),
    ]);
    let expected = "0xD0 add player dpnid 400 owner 1 flags 2 version 6 not-used 3 dnet 7\n\
        0xD1 destroy player dpnid 100 version 7 not-used 5 reason 4\n\
        0xD3 request add to group context 9 group 300 player 200\n\
        0xD7 create group requesting 4 context 9 dpnid 300 owner 1 flags 2 version 6 not-used 3 dnet 7\n\
        0xD8 destroy group group 300 version 7 not-used 5 requesting 4 context 4294967295\n\
        0xD9 add to group group 300 player 200 version 8 not-used 1 requesting 100 context 4294967295\n\
        0xDA delete from group group 300 player 200 version 9 not-used 2 requesting 0 context 1\n";
    assert_eq!(said, expected);
}

/// Position 52 is offset 48: name of 3 units, data of 2 bytes, URL of 3 bytes, and they stand in the message the other way round.
#[test]
fn fields_in_header_order() {
    let words = [0xD0, 1, 0, 0, 1, 0, 0, 53, 6, 51, 2, 48, 3];
    let m = with_bytes(&words, b"a/\0\x07zA\0b\0\0\0");
    let expected = "0xD0 add player dpnid 1 owner 0 flags 0 version 1 not-used 0 dnet 0 \
        name \"Ab\" 2 data \"\\x07z\" url \"a/\" 2\n";
    assert_eq!(text(&[m]), expected);
    // The same 8 bytes further on in a 0xD7.
    let words = [0xD7, 0, 0, 1, 0, 0, 1, 0, 0, 61, 6, 59, 2, 56, 3];
    let m = with_bytes(&words, b"a/\0\x07zA\0b\0\0\0");
    let expected = expected.replace(
        "0xD0 add player",
        "0xD7 create group requesting 0 context 0",
    );
    assert_eq!(text(&[m]), expected);
}

/// The terminator of a text is not shown and not counted; free bytes are shown whole, and fields may overlap.
#[test]
fn empty_texts_and_overlap() {
    let words = [0xD0, 1, 0, 0, 1, 0, 0, 48, 2, 48, 2, 49, 1];
    let expected = "0xD0 add player dpnid 1 owner 0 flags 0 version 1 not-used 0 dnet 0 \
        name \"\" 0 data \"\\x00\\x00\" url \"\" 0\n";
    assert_eq!(text(&[with_bytes(&words, &[0, 0])]), expected);
}

/// Printable ASCII stands for itself but for the quote and the backslash; digits are in upper case.
#[test]
fn escaped_bytes_and_units() {
    let bytes = b" ~!\x1F\x7F\x80\xFF\"\\\0";
    let units: [u16; 10] = [
        0x20, 0x7E, 0x1F, 0x7F, 0x22, 0x5C, 0xE9, 0xD83D, 0x4100, 0xABCD,
    ];
    let name: Vec<u8> = units
        .iter()
        .chain(&[0])
        .flat_map(|u| u.to_le_bytes())
        .collect();
    let words = [0xD0, 1, 0, 0, 1, 0, 0, 58, 22, 48, 10, 0, 0];
    let m = with_bytes(&words, &[&bytes[..], &name[..]].concat());
    let expected = "0xD0 add player dpnid 1 owner 0 flags 0 version 1 not-used 0 dnet 0 \
        name \" ~\\u001F\\u007F\\u0022\\u005C\\u00E9\\uD83D\\u4100\\uABCD\" 10 \
        data \" ~!\\x1F\\x7F\\x80\\xFF\\x22\\x5C\\x00\"\n";
    assert_eq!(text(&[m]), expected);
}

/// Behind each text: of a name pairs count as one, of a URL every byte counts, also those that UTF-8 would take together.
#[test]
fn counts_of_characters() {
    let name = [0xD83D, 0xDE00, 0xDE00, 0xD83D, 0x41];
    let mut m = add_named(1, 1, &name);
    put_pair(&mut m, 44, (60, 5));
    m.extend(b"\xC3\xA9\xFFz\0");
    let expected = "0xD0 add player dpnid 1 owner 0 flags 0 version 1 not-used 0 dnet 7 \
        name \"\\uD83D\\uDE00\\uDE00\\uD83DA\" 4 url \"\\xC3\\xA9\\xFFz\" 4\n";
    assert_eq!(text(&[m]), expected);
    // The whole name, not what would be kept of it.
    let long = create_named(1, 1, &units(&"\u{1F600}".repeat(40)));
    assert!(text(&[long]).ends_with("\\uDE00\" 40\n"));
}

/// Two GUIDs of bytes 00 to 0F and F0 to FF.
fn guids() -> Vec<u8> {
    (0x00..=0x0F).chain(0xF0..=0xFF).collect()
}

#[test]
fn connect_info_in_both_forms() {
    let guid_text = "instance 03020100-0504-0706-0809-0A0B0C0D0E0F \
        application F3F2F1F0-F5F4-F7F6-F8F9-FAFBFCFDFEFF";
    let plain = with_bytes(&[0xC1, 2, 6, 0, 0, 0, 0, 0, 0, 0, 0, 0, 0], &guids());
    // From position 92 on: name 4, data 1, password 4, connect data 1, URL 2, alternate address 1.
    let words = [0xC1, 4, 7, 88, 4, 92, 1, 93, 4, 97, 1, 98, 2];
    let extended = [
        with_bytes(&words, &guids()),
        le(&[100, 1]),
        b"N\0\0\0dP\0\0\0cu\0\xAA".to_vec(),
    ]
    .concat();
    let expected = format!(
        "0xC1 connect info flags 2 dnet 6 {guid_text}\n\
         0xC1 connect info flags 4 dnet 7 {guid_text} name \"N\" 1 data \"d\" password \"P\" 1 \
         connect-data \"c\" url \"u\" 1 alternate-address \"\\xAA\"\n"
    );
    assert_eq!(text(&[plain, extended]), expected);
}

#[test]
fn refused_messages() {
    let said = text(&[
        vec![0; 16_385],
        vec![],
        le(&[0xFF]),
        le(&[0xD1, 100, 7, 0]),
        le(&[0xD1, 100, 7, 0, 1, 0]),
        with_bytes(&[0xC1, 3, 6, 0, 0, 0, 0, 0, 0, 0, 0, 0, 0], &guids()),
        le(&[0xD1, 0, 7, 0, 1]),
        le(&[0xD0, 1, 0, 0, 1, 0, 0, 48, 0, 0, 0, 0, 0]),
        le(&[0xD0, 1, 0, 0, 1, 0, 0, 47, 2, 0, 0, 0, 0]),
        with_bytes(&[0xD0, 1, 0, 0, 1, 0, 0, 48, 2, 0, 0, 0, 0], b"A\0"),
    ]);
    let expected = "refused 1 message over 16384 bytes\n\
        refused 2 message under 4 bytes\n\
        refused 3 type not listed\n\
        refused 4 shorter than its fixed part\n\
        refused 5 longer than its fixed part\n\
        refused 6 flags neither client nor peer\n\
        refused 7 an id is 0\n\
        refused 8 one of offset and size is 0, the other not\n\
        refused 9 field not within the message behind its fixed part\n\
        refused 10 name, password or URL ill-formed\n";
    assert_eq!(said, expected);
}

#[test]
fn tails_and_the_limit() {
    let line = "0xD1 destroy player dpnid 100 version 7 not-used 0 reason 1\n";
    let one = framed(&[], &[destroy_player(100, 7)]);
    let all = |input: &[u8]| String::from_utf8(decode(input)).unwrap();
    assert_eq!(all(&[]), "");
    assert_eq!(all(&[0]), "cut\n");
    assert_eq!(all(&one), line);
    assert_eq!(all(&one[..23]), "cut\n");
    assert_eq!(
        all(&[&one[..], &[0xFF; 4]].concat()),
        format!("{line}cut\n")
    );
    let rest = 1_048_576 - one.len() - 4;
    let full = framed(&one, &[vec![0; rest]]);
    let expected = format!("{line}refused 1 message over 16384 bytes\n");
    assert_eq!(all(&full), expected);
    assert_eq!(all(&framed(&full, &[vec![]])), format!("{expected}cut\n"));
}
