//! Bytes that a quick search may take for a newline, words and lines of them.

use crate::draws::Draws;

/// The newline.
pub const NEWLINE: u8 = b'\n';

/// The bytes one bit away from a newline; those one carry or borrow away, of
/// the byte itself or of what differs from a newline; and the other line end.
pub const NEAR: [u8; 18] = [
    0x0B, 0x08, 0x0E, 0x02, 0x1A, 0x2A, 0x4A, 0x8A, 0x09, 0x00, 0x01, 0xFF, 0x80, 0x7F, 0x75, 0x8B,
    0xF5, b'\r',
];

/// How many in a thousand bytes of a line are any.
const ANY: u64 = 200;
/// How many in a thousand bytes of a word are newlines.
const NEWLINES: u64 = 60;

/// A word: most of its bytes are near a newline, some are any, few are
/// newlines.
pub fn word(draws: &mut Draws) -> u64 {
    let mut bytes = [0; 8];
    for byte in &mut bytes {
        *byte = if draws.per_mille(NEWLINES) {
            NEWLINE
        } else {
            byte_of_line(draws)
        };
    }
    u64::from_le_bytes(bytes)
}

/// So many bytes without a newline, most of them near one. Some lines have one
/// such byte only.
pub fn line(length: usize, draws: &mut Draws) -> Vec<u8> {
    if draws.per_mille(150) {
        return vec![draws.one_of(&NEAR); length];
    }
    let mut bytes = vec![0; length];
    bytes.fill_with(|| byte_of_line(draws));
    bytes
}

/// A byte that is no newline.
fn byte_of_line(draws: &mut Draws) -> u8 {
    let any = draws.below(256) as u8;
    if any != NEWLINE && draws.per_mille(ANY) {
        any
    } else {
        draws.one_of(&NEAR)
    }
}

/// A line with one such byte put in or in the place of another. Half of them
/// are put to one of its ends, where the rest is a good line still.
pub fn put_in(line: &[u8], draws: &mut Draws) -> Vec<u8> {
    let mut bytes = line.to_vec();
    let byte = draws.one_of(&NEAR);
    if draws.per_mille(500) {
        bytes.insert(draws.one_of(&[0, line.len()]), byte);
        return bytes;
    }
    let place = draws.place(line.len() + 1);
    match bytes.get_mut(place) {
        Some(other) if draws.per_mille(500) => *other = byte,
        _ => bytes.insert(place, byte),
    }
    bytes
}

#[cfg(test)]
mod tests {
    use super::*;
    use std::collections::HashSet;

    #[test]
    fn near_bytes_are_no_newlines() {
        let bytes: HashSet<u8> = NEAR.into_iter().collect();
        assert!(bytes.len() == NEAR.len() && !bytes.contains(&NEWLINE));
        assert!((0..8).all(|bit| bytes.contains(&(NEWLINE ^ (1 << bit)))));
    }

    #[test]
    fn lines_have_every_byte_but_the_newline() {
        let mut draws = Draws::new(3);
        let bytes: Vec<u8> = (0..400).flat_map(|_| line(40, &mut draws)).collect();
        let values: HashSet<u8> = bytes.iter().copied().collect();
        assert!(values.len() == 255 && !values.contains(&NEWLINE));
        let near = bytes.iter().filter(|byte| NEAR.contains(byte)).count();
        assert!(near > bytes.len() / 2);
    }

    #[test]
    fn a_byte_is_put_in_anywhere() {
        let mut draws = Draws::new(4);
        let lines: HashSet<Vec<u8>> = (0..3_000).map(|_| put_in(b"abc", &mut draws)).collect();
        assert_eq!(lines.len(), (3 + 4) * NEAR.len());
        assert!(lines.iter().all(|line| line.len() < 5 && line != b"abc"));
    }
}
