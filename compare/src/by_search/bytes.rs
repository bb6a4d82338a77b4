//! Bytes at hand, as a program that reads a stream has them: they grow by a
//! piece, and where they have a newline, a line is cut off.

use super::memory::{Memory, SIDE};
use crate::difference::Difference;
use crate::draws::Draws;
use crate::near::{self, NEAR, NEWLINE};
use crate::search_counts::bytes::Bytes;
use crate::search_counts::schedules::MOST_PIECE;
use reference::before_newline;
use std::ops::Range;

/// The most bytes of a fixed case.
const MOST: usize = 40;
/// Lengths around which numbers of bytes wrap, or buffers end.
const LONG: [usize; 4] = [256, 4_800, 4_801, 65_536];
/// The bytes of three times four words.
const BLOCKS: usize = 96;
/// The most lines of a drawn case.
const LINES: u64 = 12;

/// How many bytes stand before the first newline.
pub type Search = fn(&[u8]) -> usize;

/// Compares every length up to 40, from every place in a word: no newline, one
/// in every place, a second behind it, or nothing else from there on; all other
/// bytes are one that is near a newline. On both sides newlines stand next to
/// the bytes or a word apart from them; where the bytes have none, each number
/// of bytes up to that apart.
pub fn fixed(search: Search, memory: &mut Memory, counts: &mut Bytes) -> Result<(), Difference> {
    for length in 0..=MOST {
        for (first, second) in (0..=length).flat_map(|it| (it..=length).map(move |to| (it, to))) {
            for byte in NEAR {
                let bytes = arranged(byte, first, second);
                let step = if first < length { SIDE } else { 1 };
                for apart in (0..=SIDE).step_by(step) {
                    for start in 0..8 {
                        let at_hand = memory.put(start, &bytes[..length], apart, byte);
                        same(search, memory, at_hand, counts)?;
                    }
                }
            }
        }
    }
    Ok(())
}

/// A byte over and over, with newlines in two places, or from one place on.
fn arranged(byte: u8, first: usize, second: usize) -> [u8; MOST + 1] {
    let mut bytes = [byte; MOST + 1];
    if first == second {
        bytes[first..].fill(NEWLINE);
    }
    (bytes[first], bytes[second]) = (NEWLINE, NEWLINE);
    bytes
}

/// Compares some greater lengths, from every place in a word: no newline, or
/// nothing else from a place of the last twelve words on.
pub fn long(search: Search, memory: &mut Memory, counts: &mut Bytes) -> Result<(), Difference> {
    let great = LONG.into_iter().flat_map(|length| length - 2..=length + 9);
    for length in (MOST + 1..=BLOCKS + 8).chain(great) {
        for start in 0..8 {
            let byte = NEAR[(length + start) % NEAR.len()];
            let at_hand = memory.put(start, &vec![byte; length], start, byte);
            same(search, memory, at_hand.clone(), counts)?;
            for place in at_hand.clone().rev().take(BLOCKS) {
                memory.set(place, NEWLINE);
                same(search, memory, at_hand.clone(), counts)?;
            }
        }
    }
    Ok(())
}

/// Compares every search of one drawn input that comes in pieces.
pub fn drawn(
    search: Search,
    memory: &mut Memory,
    draws: &mut Draws,
    counts: &mut Bytes,
) -> Result<(), Difference> {
    let input = input(draws);
    let (apart, gap) = (draws.place(SIDE + 1), draws.one_of(&NEAR));
    let Range { mut start, end } = memory.put(draws.place(8), &input, apart, gap);
    let mut read = start;
    counts.values.extend(&input);
    while read < end {
        counts.again += u64::from(start < read);
        read = end.min(read + draws.between(1, MOST_PIECE as u64) as usize);
        loop {
            counts.drawn += 1;
            let line = same(search, memory, start..read, counts)?;
            if start + line == read {
                break;
            }
            start += line + 1;
        }
    }
    Ok(())
}

/// Some lines of bytes near a newline, and at times one about as long as the
/// longest opening or the longest line; behind them none that is empty, one or
/// many. The last one has no newline.
fn input(draws: &mut Draws) -> Vec<u8> {
    let mut lines = Vec::new();
    for _ in 0..draws.between(1, LINES) {
        let most = draws.one_of(&[2, 9, 17, 41, 41, 100]);
        lines.push(near::line(draws.place(most), draws));
    }
    if draws.per_mille(50) {
        let length = draws.one_of(&[1_390, 4_790]) + draws.place(21);
        lines.push(near::line(length, draws));
    }
    let empty = draws.one_of(&[0, 1, 1, 1, 1, 1, 1, 20]);
    lines.resize(lines.len() + empty, Vec::new());
    lines.join(&NEWLINE)
}

/// Compares one search of the bytes at hand, and answers how many stand before
/// the first newline.
fn same(
    search: Search,
    memory: &Memory,
    at_hand: Range<usize>,
    counts: &mut Bytes,
) -> Result<usize, Difference> {
    let memory = memory.bytes();
    let bytes = &memory[at_hand.clone()];
    let (proved, expected) = (search(bytes), before_newline(bytes));
    counts.take(memory, at_hand.clone(), expected);
    if proved == expected {
        Ok(expected)
    } else {
        Err(differing(memory, at_hand, proved, expected))
    }
}

/// The difference that a search shows, with some bytes on both sides.
fn differing(memory: &[u8], at_hand: Range<usize>, proved: usize, expected: usize) -> Difference {
    let Range { start, end } = at_hand;
    let before = hex(&memory[start.saturating_sub(SIDE)..start]);
    let behind = hex(&memory[end..memory.len().min(end + SIDE)]);
    let answers = format!("proved: {proved}\nreference: {expected}\n");
    let length = end - start;
    let contents = format!(
        "bytes, {} behind the beginning of a word:{}\nbefore them:{before}\nbehind them:{behind}\n{answers}",
        start % 8,
        hex(&memory[start..end]),
    );
    Difference {
        what: format!("how many of {length} bytes stand before a newline differs\n{answers}"),
        name: "difference.bytes".to_owned(),
        contents: contents.into_bytes(),
    }
}

/// Bytes as one reads them.
fn hex(bytes: &[u8]) -> String {
    bytes.iter().map(|byte| format!(" {byte:02x}")).collect()
}

#[cfg(test)]
mod tests {
    use super::*;
    use reference::has_newline;

    /// A search by words of eight bytes; one that is reported, and the
    /// remainder, it goes through singly.
    fn by_words(bytes: &[u8], has: fn(u64) -> bool) -> usize {
        let (words, _) = bytes.as_chunks();
        let none = |word: &[u8; 8]| !has(u64::from_le_bytes(*word));
        let before = words.iter().take_while(|word| none(word));
        let before = 8 * before.count();
        before + before_newline(&bytes[before..])
    }

    /// A search that of four words together looks at some places only.
    fn by_blocks(bytes: &[u8], looks: fn(usize) -> bool) -> usize {
        let (blocks, _) = bytes.as_chunks::<32>();
        let place = |&place: &usize| {
            bytes[place] == NEWLINE && (place >= 32 * blocks.len() || looks(place % 32))
        };
        (0..bytes.len()).find(place).unwrap_or(bytes.len())
    }

    /// Whether another search is found out by what is fixed, and by what is
    /// drawn.
    fn found_out(search: Search) -> [bool; 2] {
        let (mut memory, mut counts) = (Memory::default(), Bytes::default());
        let mut draws = Draws::new(8);
        let mut case = |_| drawn(search, &mut memory, &mut draws, &mut counts).is_err();
        let drawn = (0..3_000).any(&mut case);
        [fixed(search, &mut memory, &mut counts).is_err(), drawn]
    }

    #[test]
    fn exact_ones_show_no_difference_and_meet_all() {
        assert_eq!(found_out(|bytes| by_words(bytes, has_newline)), [false; 2]);
        let (mut memory, mut counts) = (Memory::default(), Bytes::default());
        let mut draws = Draws::new(9);
        assert!(fixed(before_newline, &mut memory, &mut counts).is_ok());
        assert!(long(before_newline, &mut memory, &mut counts).is_ok());
        for _ in 0..25_000 {
            assert!(drawn(before_newline, &mut memory, &mut draws, &mut counts).is_ok());
        }
        assert_eq!(counts.lacks(500), None, "{counts}");
    }

    #[test]
    fn others_are_found_out_by_what_is_fixed_and_by_what_is_drawn() {
        let others: [Search; 14] = [
            <[u8]>::len,
            |bytes| by_blocks(bytes, |place| place < 24),
            |bytes| by_blocks(bytes, |place| !(8..16).contains(&place)),
            |_| 0,
            |bytes| before_newline(bytes) / 8 * 8,
            |bytes| before_newline(bytes).min(32),
            |bytes| by_words(bytes, |word| has_newline(word << 8)),
            |bytes| by_words(bytes, |word| has_newline(word >> 8)),
            |bytes| by_words(bytes, |word| has_newline(word) && word & 0xFFFF != 0x0A0A),
            |bytes| by_words(&bytes[..bytes.len() / 8 * 8], has_newline),
            |bytes| {
                bytes
                    .iter()
                    .rposition(|&it| it == NEWLINE)
                    .unwrap_or(bytes.len())
            },
            |bytes| {
                bytes
                    .iter()
                    .position(|&it| it & 0x7F == NEWLINE)
                    .unwrap_or(bytes.len())
            },
            |bytes| {
                bytes
                    .iter()
                    .position(|&it| it < 0x0B)
                    .unwrap_or(bytes.len())
            },
            |bytes| match bytes.as_ptr().addr() % 8 {
                5 => bytes.len(),
                _ => before_newline(bytes),
            },
        ];
        for (number, search) in others.into_iter().enumerate() {
            assert_eq!(found_out(search), [true; 2], "{number}");
        }
    }

    #[test]
    fn lengths_that_wrap_are_found_out() {
        let compare = |search| {
            let (mut memory, mut counts) = (Memory::default(), Bytes::default());
            long(search, &mut memory, &mut counts)
        };
        assert!(compare(before_newline).is_ok());
        let others: [Search; 5] = [
            |bytes| match before_newline(bytes) {
                place if place > 64 && place % 32 == 17 => place + 1,
                place => place,
            },
            |bytes| before_newline(bytes) & 0xFF,
            |bytes| before_newline(bytes) & 0xFFFF,
            |bytes| before_newline(bytes).min(4_801),
            |bytes| before_newline(bytes).min(65_536),
        ];
        for (number, search) in others.into_iter().enumerate() {
            assert!(compare(search).is_err(), "{number}");
        }
    }

    #[test]
    fn every_line_is_cut_off_once() {
        let (mut memory, mut draws) = (Memory::default(), Draws::new(10));
        for _ in 0..500 {
            let input = input(&mut draws.clone());
            let mut counts = Bytes::default();
            assert!(drawn(before_newline, &mut memory, &mut draws, &mut counts).is_ok());
            let found: u64 = counts.in_word.iter().chain(&counts.in_rest).sum();
            let newlines = input.iter().filter(|&&byte| byte == NEWLINE);
            assert_eq!(found, newlines.count() as u64);
        }
    }

    #[test]
    fn a_difference_is_shown_with_its_bytes() {
        let mut memory = Memory::default();
        let at_hand = memory.put(3, b"ab\n\x8A", 1, 0x0B);
        let told = same(<[u8]>::len, &memory, at_hand, &mut Bytes::default());
        let difference = told.expect_err("all bytes are taken for the line");
        let shown = "bytes, 3 behind the beginning of a word: 61 62 0a 8a\n\
                     before them: 0a 0a 0a 0a 0a 0a 0a 0b\n\
                     behind them: 0b 0a 0a 0a 0a 0a 0a 0a\nproved: 4\nreference: 2\n";
        assert_eq!(String::from_utf8_lossy(&difference.contents), shown);
        let told = "how many of 4 bytes stand before a newline differs\nproved: 4\nreference: 2\n";
        assert_eq!(difference.what, told);
    }
}
