//! Looking for newlines.

use reference::{before_newline, has_newline};

/// Bytes that a quick search may take for a newline.
const OTHERS: [u8; 14] = [
    0x0B, 0x08, 0x0E, 0x02, 0x1A, 0x2A, 0x4A, 0x8A, 0x09, 0x00, 0xFF, 0x80, 0x7F, b'\r',
];

#[test]
fn the_first_newline_counts() {
    assert_eq!(before_newline(b""), 0);
    assert_eq!(before_newline(b"\n"), 0);
    assert_eq!(before_newline(b"ab\ncd\n"), 2);
    assert_eq!(before_newline(b"\n\n"), 0);
    assert_eq!(before_newline(b"(settle)\n(tick 1)\n"), 8);
}

#[test]
fn every_place_counts_and_no_other_byte() {
    for byte in OTHERS {
        for length in 0..40 {
            let mut bytes = vec![byte; length];
            assert_eq!(before_newline(&bytes), length);
            for place in (0..length).rev() {
                bytes[place] = b'\n';
                assert_eq!(before_newline(&bytes), place);
                assert_eq!(before_newline(&bytes[..place]), place);
            }
        }
    }
}

#[test]
fn one_byte_of_a_word_is_enough() {
    for byte in OTHERS {
        assert!(!has_newline(u64::from_le_bytes([byte; 8])));
        for place in 0..8 {
            for value in 0..=u8::MAX {
                let mut bytes = [byte; 8];
                bytes[place] = value;
                let word = u64::from_le_bytes(bytes);
                assert_eq!(has_newline(word), value == b'\n', "{word:#018x}");
            }
        }
    }
    assert!(has_newline(0x0A0A_0A0A_0A0A_0A0A));
    assert!(!has_newline(0));
}
