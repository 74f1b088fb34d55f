//! What a number means, in the words of the programs that tell people. The
//! numbers are the papers' (01 "Numbers a call may answer"; 29 is of 02 A2), the
//! words are not.

/// Nothing is said of a number that the papers do not have.
pub fn meaning(number: u32) -> &'static str {
    match number {
        1 => "message over 16384 bytes",
        2 => "message under 4 bytes",
        3 => "type not listed",
        4 => "shorter than its fixed part",
        5 => "longer than its fixed part",
        6 => "flags neither client nor peer",
        7 => "an id is 0",
        8 => "one of offset and size is 0, the other not",
        9 => "field not within the message behind its fixed part",
        10 => "name, password or URL ill-formed",
        11 => "not readable once written",
        12 => "buffer too short",
        13 => "no operation",
        14 => "version already passed",
        15 => "version more than 32 ahead",
        16 => "already pending",
        17 => "another operation of this version is pending",
        21 => "snapshot length",
        22 => "snapshot format",
        23 => "snapshot counts",
        24 => "snapshot entry",
        25 => "snapshot host",
        26 => "snapshot membership",
        27 => "snapshot buffer too short",
        28 => "replica not valid",
        29 => "more messages than records",
        _ => "",
    }
}
