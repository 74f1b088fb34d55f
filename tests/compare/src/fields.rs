//! Fields to write: well-formed for the most part, ill-formed, of no bytes, near the limit, and over it.

use crate::comparison::hex;
use second::random::{self, Rng};

/// A field of a writer: its bytes are passed even where it is not given, and must then not be looked at.
#[derive(Clone)]
pub struct Field {
    pub given: bool,
    pub bytes: Vec<u8>,
}

#[derive(Clone, Copy)]
pub enum Content {
    Wide,
    Bytes,
    Free,
}

impl Field {
    pub fn any(rng: &mut Rng, content: Content) -> Field {
        let bytes = match rng.below(24) {
            0 => random::noise(rng, 6),
            1 => Vec::new(),
            2 => ill_formed(rng, content),
            3 if rng.one_in(8) => over_long(rng, content),
            _ => well_formed(rng, content),
        };
        Field {
            given: !rng.one_in(3),
            bytes,
        }
    }

    pub fn for_second(&self) -> Option<&[u8]> {
        self.given.then_some(&self.bytes)
    }

    /// As C takes it.
    pub fn raw(&self) -> (*const u8, usize) {
        (self.bytes.as_ptr(), self.bytes.len())
    }

    fn size(&self) -> usize {
        self.for_second().map_or(0, <[u8]>::len)
    }

    pub fn given_empty(&self) -> bool {
        self.given && self.bytes.is_empty()
    }

    pub fn show(&self) -> String {
        format!(
            "{}:{}",
            if self.given { "given" } else { "not given" },
            hex(&self.bytes)
        )
    }
}

fn well_formed(rng: &mut Rng, content: Content) -> Vec<u8> {
    match content {
        Content::Wide => random::wide_text(rng),
        Content::Bytes => random::byte_text(rng),
        Content::Free => random::free_bytes(rng),
    }
}

/// No terminator, one too many, one that stands between two units, an odd size.
fn ill_formed(rng: &mut Rng, content: Content) -> Vec<u8> {
    let mut bytes = well_formed(rng, content);
    match rng.below(5) {
        0 => bytes.extend([0, 0]),
        1 => bytes.push(0),
        2 => bytes.push(1),
        3 => bytes.truncate(bytes.len() - 1),
        _ => bytes.extend([1, 0, 0, 1]),
    }
    bytes
}

/// Well-formed but for its length, or just within it.
fn over_long(rng: &mut Rng, content: Content) -> Vec<u8> {
    let length = rng.pick(&[
        16_290, 16_380, 16_384, 16_386, 32_768, 65_536, 65_538, 70_000,
    ]);
    let mut bytes = vec![1; length];
    match content {
        Content::Wide => bytes[length - 2..].fill(0),
        Content::Bytes => bytes[length - 1] = 0,
        Content::Free => {}
    }
    bytes
}

/// Now and then makes a free field so long that the whole message is near 16,384 bytes; `fixed` is the fixed part.
pub fn fill_to_limit(rng: &mut Rng, fixed: usize, fields: &mut [Field], free: usize) {
    if !rng.one_in(12) {
        return;
    }
    fields[free].given = true;
    fields[free].bytes.clear();
    let rest: usize = fixed + fields.iter().map(Field::size).sum::<usize>();
    let goal = 16_382 + rng.below(5);
    fields[free].bytes = vec![9; goal.saturating_sub(rest).max(1)];
}
