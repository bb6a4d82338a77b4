//! A memory in which bytes at hand lie, so that it is known where in a word
//! they begin and what stands on both sides of them.

use crate::near::NEWLINE;
use std::ops::Range;

/// The bytes of it.
const ROOM: usize = 1 << 17;
/// The bytes on either side of those that are put into it, at least; and the
/// furthest that newlines are apart from them.
pub const SIDE: usize = 8;

/// A memory that begins with a word.
pub struct Memory(Box<Aligned>);

#[repr(align(8))]
struct Aligned([u8; ROOM]);

impl Default for Memory {
    fn default() -> Self {
        Self(Box::new(Aligned([0; ROOM])))
    }
}

impl Memory {
    /// All of it.
    pub const fn bytes(&self) -> &[u8] {
        &self.0 .0
    }

    /// Puts bytes so far behind the beginning of a word, and newlines on both
    /// sides of them, that far apart from them; another byte fills the gaps.
    /// Answers where the bytes are.
    pub fn put(&mut self, start: usize, bytes: &[u8], apart: usize, gap: u8) -> Range<usize> {
        let start = SIDE + start;
        let end = start + bytes.len();
        let memory = &mut self.0 .0;
        memory[..start - apart].fill(NEWLINE);
        memory[start - apart..start].fill(gap);
        memory[start..end].copy_from_slice(bytes);
        memory[end..end + apart].fill(gap);
        memory[end + apart..end + apart + SIDE].fill(NEWLINE);
        start..end
    }

    /// Changes one byte.
    pub const fn set(&mut self, place: usize, byte: u8) {
        self.0 .0[place] = byte;
    }
}

#[cfg(test)]
mod tests {
    use super::*;

    #[test]
    fn bytes_lie_where_they_are_put() {
        let mut memory = Memory::default();
        for start in 0..8 {
            let at_hand = memory.put(start, b"(settle)", 2, b'x');
            let bytes = &memory.bytes()[at_hand.clone()];
            assert_eq!(
                (bytes, bytes.as_ptr().addr() % 8),
                (&b"(settle)"[..], start)
            );
            let before = &memory.bytes()[..at_hand.start];
            assert!(before.ends_with(b"\n\n\n\n\n\nxx"));
            assert!(memory.bytes()[at_hand.end..].starts_with(b"xx\n\n\n\n\n\n"));
            memory.set(at_hand.start, b'x');
            assert_eq!(memory.bytes()[at_hand], *b"xsettle)");
        }
    }
}
