//! Input in frames: a snapshot that has its own length, or messages, each
//! after a 4-byte big-endian length (01 "The listing"; 02 A2).

/// What is taken of an input: at most so many bytes, and whether there were more.
pub fn taken(input: &[u8], limit: usize) -> (&[u8], bool) {
    (&input[..input.len().min(limit)], input.len() > limit)
}

/// The snapshot at the start, all there is where it is cut short, and the rest.
pub fn split_snapshot(input: &[u8]) -> (&[u8], &[u8]) {
    let length = match frame_length(input) {
        Some(n) => (n + 4).min(input.len() as u64) as usize,
        None => input.len(),
    };
    input.split_at(length)
}

/// Every whole message, and whether a tail was dropped behind them. A length
/// of 0, or one over 16,384, is a message like any other.
pub fn messages(mut rest: &[u8]) -> (Vec<&[u8]>, bool) {
    let mut whole = Vec::new();
    while !rest.is_empty() {
        let Some(length) = frame_length(rest) else {
            return (whole, true);
        };
        if length + 4 > rest.len() as u64 {
            return (whole, true);
        }
        let (frame, after) = rest.split_at(4 + length as usize);
        whole.push(&frame[4..]);
        rest = after;
    }
    (whole, false)
}

/// The length word at the start, if its four bytes are there.
fn frame_length(input: &[u8]) -> Option<u64> {
    let bytes: [u8; 4] = input.get(..4)?.try_into().ok()?;
    Some(u64::from(u32::from_be_bytes(bytes)))
}
