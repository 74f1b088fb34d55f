//! Operations put together word by word, with any value in the words that are not kept.

use dp8::PLAYER;
use second::random::Rng;

/// A 0xD0 or, of a group, a 0xD7, with a name, or without where there is none; data stand before it now and then.
pub fn add(rng: &mut Rng, kind: u32, id: u32, version: u32, name: Option<&[u16]>) -> Vec<u8> {
    // The flags are those that elsewhere mark a group, and one that goes with its last member: here they say nothing.
    let (mut words, flags) = match kind {
        PLAYER => (vec![0xD0], 0x10),
        _ => (vec![0xD7, not_kept(rng), not_kept(rng)], 0x40),
    };
    words.extend([id, 1, flags, version, not_kept(rng), 7]);
    let fixed = 4 * words.len() + 24;
    let data = rng.pick(&[0, 0, 1, 4]);
    let pair = |size: usize, start: usize| if size == 0 { (0, 0) } else { (start - 4, size) };
    let name_pair = name.map_or((0, 0), |units| pair(2 * units.len() + 2, fixed + data));
    for (offset, size) in [name_pair, pair(data, fixed), (0, 0)] {
        words.extend([offset as u32, size as u32]);
    }
    let mut m = bytes(&words);
    m.extend(vec![0x41; data]);
    let units = name.iter().flat_map(|units| units.iter().chain(&[0]));
    m.extend(units.flat_map(|unit| unit.to_le_bytes()));
    m
}

/// A 0xD1 or, of a group, a 0xD8.
pub fn destroy(rng: &mut Rng, kind: u32, id: u32, version: u32) -> Vec<u8> {
    let (first, second, third) = (not_kept(rng), not_kept(rng), not_kept(rng));
    match kind {
        PLAYER => bytes(&[0xD1, id, version, first, second]),
        _ => bytes(&[0xD8, id, version, first, second, third]),
    }
}

/// A 0xD9.
pub fn join(rng: &mut Rng, (group, player): (u32, u32), version: u32) -> Vec<u8> {
    change(rng, 0xD9, (group, player), version)
}

/// A 0xDA.
pub fn leave(rng: &mut Rng, (group, player): (u32, u32), version: u32) -> Vec<u8> {
    change(rng, 0xDA, (group, player), version)
}

fn change(rng: &mut Rng, kind: u32, (group, player): (u32, u32), version: u32) -> Vec<u8> {
    let (first, second, third) = (not_kept(rng), not_kept(rng), not_kept(rng));
    bytes(&[kind, group, player, version, first, second, third])
}

/// The places of the words that are kept, and of those that are not; the version aside.
pub fn words_of(kind: u8) -> (&'static [usize], &'static [usize]) {
    match kind {
        0xD0 => (&[1, 2, 3, 6], &[5]),
        0xD1 => (&[1], &[3, 4]),
        0xD7 => (&[3, 4, 5, 8], &[1, 2, 7]),
        0xD8 => (&[1], &[3, 4, 5]),
        _ => (&[1, 2], &[4, 5, 6]),
    }
}

fn not_kept(rng: &mut Rng) -> u32 {
    let any = rng.word();
    rng.pick(&[0, 0, 1, any])
}

fn bytes(words: &[u32]) -> Vec<u8> {
    words.iter().flat_map(|word| word.to_le_bytes()).collect()
}
