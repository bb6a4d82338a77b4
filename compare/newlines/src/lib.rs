//! The proved search for newlines over plain slices and numbers, and the C
//! library's search beside it. Each takes any slice or number.

#![deny(missing_docs)]

mod archive;

use std::ffi::c_int;

/// How many bytes stand before the first newline, as the proved code answers:
/// the length where there is none.
pub fn before_newline(bytes: &[u8]) -> usize {
    // SAFETY: pointer and length are those of a slice that is borrowed through
    // the call, so that nobody writes it meanwhile; an empty slice's pointer
    // is not null, and is not followed; the function stays within the length,
    // writes nothing and keeps no pointer.
    unsafe { archive::before_newline(bytes.as_ptr(), bytes.len()) }
}

/// Whether one of the eight bytes of a word is a newline, as the proved code
/// answers.
pub fn has_newline(word: u64) -> bool {
    // SAFETY: the function takes any number, looks at no memory and answers
    // true or false.
    unsafe { archive::has_newline(word) }
}

/// How many bytes stand before the first newline, as the C library answers.
pub fn memchr(bytes: &[u8]) -> usize {
    let start = bytes.as_ptr();
    // SAFETY: as for the proved search: the bytes are a slice's, borrowed
    // through the call, and with the length 0 none is looked at.
    let found = unsafe { archive::memchr(start.cast(), c_int::from(b'\n'), bytes.len()) };
    if found.is_null() {
        bytes.len()
    } else {
        found.addr() - start.addr()
    }
}

#[cfg(test)]
mod tests {
    use super::*;

    #[test]
    fn the_first_newline_is_found_at_every_place() {
        for search in [before_newline, memchr] {
            assert_eq!(search(b""), 0);
            for length in 0..40 {
                let mut bytes = vec![0x8A; length];
                assert_eq!(search(&bytes), length);
                for place in (0..length).rev() {
                    bytes[place] = b'\n';
                    assert_eq!(search(&bytes), place);
                    assert_eq!(search(&bytes[..place]), place);
                }
                assert_eq!(search(&bytes[length.min(1)..]), 0);
            }
        }
    }

    #[test]
    fn a_word_is_reported_for_a_newline_alone() {
        for place in 0..8 {
            for byte in 0..=u8::MAX {
                let mut bytes = *b"(settle)";
                bytes[place] = byte;
                let word = u64::from_le_bytes(bytes);
                assert_eq!(has_newline(word), byte == b'\n', "{word:#018x}");
            }
        }
    }
}
