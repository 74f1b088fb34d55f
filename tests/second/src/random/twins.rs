//! The operation of the other kind: a group's for a player's, a deletion for an
//! addition, and the other way round. It keeps the same values but for its type.

use crate::read::read;

/// Makes a well-formed operation its twin; false, and nothing changed, for any
/// other message.
pub fn make_twin(m: &mut Vec<u8>) -> bool {
    if read(m).is_err() {
        return false;
    }
    let twin = match m[0] {
        0xD0 => {
            m.splice(4..4, [0; 8]);
            move_fields(m, 36, 8);
            0xD7
        }
        0xD7 => {
            m.drain(4..12);
            move_fields(m, 28, 8u32.wrapping_neg());
            0xD0
        }
        0xD1 => {
            m.extend([0; 4]);
            0xD8
        }
        0xD8 => {
            m.truncate(20);
            0xD1
        }
        0xD9 => 0xDA,
        0xDA => 0xD9,
        _ => return false,
    };
    m[0] = twin;
    true
}

/// The offsets of the three fields from this pair on; absent ones stay absent.
fn move_fields(m: &mut [u8], first: usize, by: u32) {
    for pair in [first, first + 8, first + 16] {
        let word = &mut m[pair..pair + 4];
        let offset = u32::from_le_bytes([word[0], word[1], word[2], word[3]]);
        if offset != 0 {
            word.copy_from_slice(&offset.wrapping_add(by).to_le_bytes());
        }
    }
}
