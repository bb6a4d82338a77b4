//! The search for newlines alone, over lines of some lengths.

use super::{in_turn, plain, timed, Row};
use crate::by_search::bytes::Search;
use crate::draws::Draws;
use newlines::{before_newline, memchr};
use std::hint::black_box;
use std::time::Duration;

/// The bytes of the lines before their newlines.
const LENGTHS: [usize; 4] = [20, 40, 1_400, 4_800];
/// The bytes of all lines together, at most.
const BYTES: usize = 65_536;
/// How often all of them are gone through in one turn.
const TIMES: usize = 16;
/// The bytes of lines whose lengths differ, as those of a schedule's events do;
/// so many of them that nothing can learn where they end.
const MIXED: (u64, u64) = (8, 24);

/// What the proved search is set beside.
const OTHERS: [(&str, Search); 2] = [
    ("a byte loop", plain::before_newline),
    ("the C library's memchr", memchr),
];

/// Two rows per length, and two of lines whose lengths differ.
pub fn rows() -> Vec<Row> {
    let mut rows = Vec::new();
    let mut add = |told: String, bytes: &[u8], times: usize| {
        for (name, other) in OTHERS {
            let proved = || walk(bytes, times, before_newline);
            let ratio = in_turn(proved, || walk(bytes, times, other)).ratio();
            let what = format!("search for a newline, lines of {told} bytes, beside {name}");
            rows.push(Row::new(what, ratio));
        }
    };
    for length in LENGTHS {
        add(length.to_string(), &lines(length), TIMES);
    }
    let (least, most) = MIXED;
    add(format!("{least} to {most}"), &mixed(), 1);
    rows
}

/// Lines of printable bytes, all of that length.
fn lines(length: usize) -> Vec<u8> {
    let line: Vec<u8> = (b' '..=b'~').cycle().take(length).chain([b'\n']).collect();
    line.repeat(BYTES / line.len())
}

/// As many bytes as are gone through in a turn of others, in lines whose
/// lengths are drawn.
fn mixed() -> Vec<u8> {
    let (mut bytes, mut draws) = (Vec::new(), Draws::new(1));
    let (least, most) = MIXED;
    while bytes.len() < BYTES * TIMES {
        let length = draws.between(least, most) as usize;
        bytes.extend((b' '..=b'~').cycle().take(length).chain([b'\n']));
    }
    bytes
}

/// The time that a search needs to go from line to line, so many times.
fn walk(bytes: &[u8], times: usize, search: Search) -> Duration {
    timed(|| {
        for _ in 0..times {
            black_box(count(black_box(bytes), search));
        }
    })
}

/// How many lines a search finds, each from where the last one ended.
fn count(mut bytes: &[u8], search: Search) -> usize {
    let mut lines = 0;
    while let Some(behind) = bytes.get(search(bytes) + 1..) {
        bytes = behind;
        lines += 1;
    }
    lines
}

#[cfg(test)]
mod tests {
    use super::*;

    #[test]
    fn every_search_finds_every_line() {
        for length in LENGTHS {
            let bytes = lines(length);
            assert!(bytes.len() <= BYTES && bytes.len() + length + 1 > BYTES);
            let newlines = bytes.iter().filter(|&&byte| byte == b'\n').count();
            assert_eq!(newlines, bytes.len() / (length + 1));
            for search in [before_newline, plain::before_newline, memchr] {
                assert_eq!(count(&bytes, search), newlines);
                assert_eq!(search(&bytes), length);
            }
        }
    }

    #[test]
    fn lines_of_every_length_are_mixed() {
        let bytes = mixed();
        let mut lengths: Vec<usize> = bytes.split(|&it| it == b'\n').map(<[u8]>::len).collect();
        assert_eq!(lengths.pop(), Some(0));
        for search in [before_newline, plain::before_newline, memchr] {
            assert_eq!(count(&bytes, search), lengths.len());
        }
        lengths.sort_unstable();
        lengths.dedup();
        assert!(lengths.into_iter().eq(8..=24));
    }
}
