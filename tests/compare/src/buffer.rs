//! What is lent to a call, a buffer, records or a replica, with a pattern around it, to see what the call does to all of it.

use dp8::{Answer, Replica};
use second::random::Rng;

/// Bytes, words or records before and after the lent part.
const AROUND: usize = 64;

/// Bytes, or records.
pub struct Buffer<T = u8> {
    whole: Vec<T>,
}

impl Buffer {
    /// A buffer with this much room; the same salt gives the same bytes.
    pub fn new(room: usize, salt: u8) -> Buffer {
        let byte = |at: usize| (at as u8).wrapping_mul(37).wrapping_add(salt) ^ (at >> 8) as u8;
        Buffer::filled(room, byte)
    }
}

impl Buffer<Answer> {
    /// So many records; the same salt gives the same ones.
    pub fn records(room: usize, salt: u8) -> Buffer<Answer> {
        let word = |at: usize| pattern(at + 1_000 * usize::from(salt));
        Buffer::filled(room, |at| Answer {
            number: word(3 * at),
            passed: word(3 * at + 1),
            noops: word(3 * at + 2),
        })
    }
}

impl<T> Buffer<T> {
    fn filled(room: usize, at: impl Fn(usize) -> T) -> Buffer<T> {
        Buffer {
            whole: (0..room + 2 * AROUND).map(at).collect(),
        }
    }

    pub fn lent(&mut self) -> &mut [T] {
        let end = self.whole.len() - AROUND;
        &mut self.whole[AROUND..end]
    }

    /// The lent part and what is around it.
    pub fn whole(&self) -> &[T] {
        &self.whole
    }
}

/// A word that tells its place.
fn pattern(at: usize) -> u32 {
    (at as u32).wrapping_mul(0x9E37_79B9)
}

/// A replica with words around it.
#[repr(C)]
pub struct Lent {
    before: [u32; AROUND],
    pub replica: Replica,
    after: [u32; AROUND],
}

impl Lent {
    pub fn new(replica: Replica) -> Lent {
        Lent {
            before: std::array::from_fn(pattern),
            replica,
            after: std::array::from_fn(|at| pattern(at + AROUND)),
        }
    }

    /// The words before and after the replica.
    pub fn around(&self) -> impl Iterator<Item = u32> {
        self.before.into_iter().chain(self.after)
    }
}

/// A room around what is needed, none, little, or plenty.
pub fn room(rng: &mut Rng, needed: usize) -> usize {
    match rng.below(10) {
        0 => 0,
        1 => rng.below(needed + 1),
        2..=3 => needed.saturating_sub(1),
        4..=5 => needed,
        6 => needed + 1,
        7 => needed.saturating_sub(rng.between(1, 8)),
        8 => needed + rng.between(1, 300),
        _ => rng.pick(&[16_384, 16_385, 20_000, 7_000]),
    }
}
