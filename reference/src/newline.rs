//! Looking for newlines. "Look for the newline a word of eight bytes at a
//! time ..., the remainder singly" says how to be quick, and "the line found,
//! and each refusal, stay the same for every input": so here all bytes are
//! looked at singly.

/// How many bytes stand before the first newline: all of them where there is
/// none.
pub fn before_newline(bytes: &[u8]) -> usize {
    bytes.iter().take_while(|&&byte| byte != b'\n').count()
}

/// Whether a word has a newline: "A word is reported exactly when one of its
/// bytes is a newline."
pub fn has_newline(word: u64) -> bool {
    word.to_le_bytes().contains(&b'\n')
}
