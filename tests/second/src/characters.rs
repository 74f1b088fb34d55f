//! How many characters a text has, its terminator left out (02 A9).

/// Of UTF-16 units: a high half followed by a low half is one, and every other
/// unit is one, a lone half included.
pub fn of_units(units: &[u16]) -> usize {
    let mut rest = units;
    let mut count = 0;
    while !rest.is_empty() {
        rest = match rest {
            [0xD800..=0xDBFF, 0xDC00..=0xDFFF, after @ ..] => after,
            _ => &rest[1..],
        };
        count += 1;
    }
    count
}

/// Of the bytes of a URL, of which the last is the terminator.
pub fn of_url(bytes: &[u8]) -> usize {
    bytes.len() - 1
}
