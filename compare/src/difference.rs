//! A difference found, and the file that shows it again.

use std::fs;
use std::io;
use std::path::{Path, PathBuf};

/// A difference between the two sides.
#[derive(Clone, Debug)]
pub struct Difference {
    /// What differs: where, and both answers.
    pub what: String,
    /// The name of the file that shows it.
    pub name: String,
    /// What the file holds: a schedule, a raw call as numbers, or bytes in hex.
    pub contents: Vec<u8>,
}

impl Difference {
    /// Saves what shows it, and answers where.
    pub fn save(&self, directory: &Path) -> io::Result<PathBuf> {
        fs::create_dir_all(directory)?;
        let path = directory.join(&self.name);
        fs::write(&path, &self.contents)?;
        Ok(path)
    }

    /// What is printed of it: what differs, and as much of what shows it as
    /// can be looked through.
    pub fn told(&self) -> String {
        const MOST: usize = 8_000;
        let shown = &self.contents[..self.contents.len().min(MOST)];
        let mut told = format!("{}\n{}", self.what, String::from_utf8_lossy(shown));
        if self.contents.len() > MOST {
            told.push_str("\n.. and more\n");
        }
        told
    }
}

/// What the reference answered, if it did.
pub fn told(answer: Option<u64>) -> String {
    answer.map_or_else(|| "it panicked".to_owned(), |answer| answer.to_string())
}

/// The first line in which what a proved program printed differs from what is
/// expected, counted from 0, with both of them there; none if they are the
/// same. What is expected comes with the name of the one who tells it.
pub fn first_line(proved: &[u8], teller: &str, expected: &[u8]) -> Option<(usize, String)> {
    if proved == expected {
        return None;
    }
    let mut lines = proved.split_inclusive(|&byte| byte == b'\n');
    let mut others = expected.split_inclusive(|&byte| byte == b'\n');
    let mut place = 0;
    loop {
        let (line, other) = (lines.next(), others.next());
        if line != other {
            return Some((place, told_apart(line, teller, other)));
        }
        place += 1;
    }
}

/// Both lines, and the first word that differs.
fn told_apart(proved: Option<&[u8]>, teller: &str, expected: Option<&[u8]>) -> String {
    let text = |line: Option<&[u8]>| match line {
        Some(line) => String::from_utf8_lossy(line).trim_end().to_owned(),
        None => "nothing".to_owned(),
    };
    let (proved, expected) = (text(proved), text(expected));
    let word = first_word(
        proved.split(' ').collect::<Vec<_>>().as_slice(),
        expected.split(' ').collect::<Vec<_>>().as_slice(),
    );
    let word = word.map_or_else(String::new, |word| {
        format!(", apart from word {}", word + 1)
    });
    format!("proved: {proved}\n{teller}: {expected}{word}")
}

/// The first place in which two lists differ.
pub fn first_word<T: PartialEq>(one: &[T], other: &[T]) -> Option<usize> {
    if one == other {
        return None;
    }
    let same = one
        .iter()
        .zip(other)
        .take_while(|(word, other)| word == other);
    Some(same.count())
}

#[cfg(test)]
mod tests {
    use super::*;

    #[test]
    fn the_first_difference_is_found() {
        let first_line = |proved: &[u8], other: &[u8]| first_line(proved, "reference", other);
        assert_eq!(first_line(b"a\nb\n", b"a\nb\n"), None);
        let (place, told) = first_line(b"a\n(done 0 8)\n", b"a\n(done 0 9)\n").expect("a line");
        assert_eq!(place, 1);
        assert_eq!(
            told,
            "proved: (done 0 8)\nreference: (done 0 9), apart from word 3"
        );
        let (place, _) = first_line(b"a\n", b"a\nb\n").expect("a line");
        assert_eq!(place, 1);
        assert_eq!(first_word(&[1, 2], &[1, 2, 3]), Some(2));
        assert_eq!(first_word(&[1, 2], &[1, 2]), None);
    }
}
