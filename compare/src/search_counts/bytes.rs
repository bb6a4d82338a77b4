//! Searches of bytes at hand.

use super::{few, few_in};
use crate::near::NEWLINE;
use std::collections::BTreeSet;
use std::fmt::{self, Display, Formatter};
use std::ops::Range;

/// The searches that the gate's comparison has, at least.
const LEAST: u64 = 3_000_000;
/// Those of drawn inputs among them, at least.
const LEAST_DRAWN: u64 = 500_000;

/// Counts of searches.
#[derive(Clone, Default, Debug)]
pub struct Bytes {
    /// Those that found no newline, by how many bytes the remainder has.
    pub none: [u64; 8],
    /// Those that found one in a word, by its place there and in which of four
    /// words it is.
    pub in_word: [u64; 32],
    /// Those that found one in the remainder, by its place there.
    pub in_rest: [u64; 7],
    /// All of them, by where the bytes begin in a word of the memory.
    pub starts: [u64; 8],
    /// Those that found none, by how far behind the bytes the next one stands.
    pub behind: [u64; 8],
    /// All of them, by how far before the bytes the last one stands.
    pub before: [u64; 8],
    /// Those that found one with another behind it.
    pub another: u64,
    /// Those of bytes that had been searched before, but for the last piece.
    pub again: u64,
    /// Those of more than 65,536 bytes.
    pub great: u64,
    /// Those of drawn inputs.
    pub drawn: u64,
    /// The values that bytes of drawn inputs have.
    pub values: BTreeSet<u8>,
}

impl Bytes {
    /// Takes in a search of these bytes of a memory, which begins with a word,
    /// and how many stand before the first newline.
    pub fn take(&mut self, memory: &[u8], bytes: Range<usize>, before: usize) {
        let (length, words) = (bytes.len(), bytes.len() / 8 * 8);
        let first = bytes.start + before;
        if before == length {
            self.none[length - words] += 1;
            count_next(&mut self.behind, memory[bytes.end..].iter());
        } else {
            match before.checked_sub(words) {
                None => self.in_word[before % 32] += 1,
                Some(place) => self.in_rest[place] += 1,
            }
            self.another += u64::from(memory[first + 1..bytes.end].contains(&NEWLINE));
        }
        count_next(&mut self.before, memory[..bytes.start].iter().rev());
        self.starts[bytes.start % 8] += 1;
        self.great += u64::from(length > 65_536);
    }

    /// All of them.
    pub fn all(&self) -> u64 {
        self.starts.iter().sum()
    }

    /// What was met less often.
    pub fn lacks(&self, least: u64) -> Option<String> {
        let all = self.all();
        if all < LEAST {
            return Some(format!("only {all}"));
        }
        if self.drawn < LEAST_DRAWN {
            return Some(format!("only {} of drawn inputs", self.drawn));
        }
        if self.values.len() < 256 {
            return Some(format!("only {} values of bytes", self.values.len()));
        }
        let rows = [
            (self.another, "with another newline"),
            (self.again, "searched again"),
            (self.great, "of more than 65,536 bytes"),
        ];
        few(&rows, least)
            .or_else(|| few_in(&self.none, "without a newline, remainder", least))
            .or_else(|| few_in(&self.in_word, "found in a word, place", least))
            .or_else(|| few_in(&self.in_rest, "found in the remainder, place", least))
            .or_else(|| few_in(&self.behind, "without one, the next one behind", least))
            .or_else(|| few_in(&self.before, "with one before", least))
            .or_else(|| few_in(&self.starts, "that begin in a word at", least))
    }
}

/// Counts how far away the next newline is, unless it is further than a word.
fn count_next<'a>(times: &mut [u64; 8], bytes: impl Iterator<Item = &'a u8>) {
    let mut places = times.iter_mut().zip(bytes);
    if let Some((times, _)) = places.find(|(_, &byte)| byte == NEWLINE) {
        *times += 1;
    }
}

impl Display for Bytes {
    fn fmt(&self, out: &mut Formatter) -> fmt::Result {
        let Self {
            none,
            in_word,
            in_rest,
            starts,
            behind,
            before,
            another,
            again,
            great,
            drawn,
            values,
        } = self;
        let (all, values) = (self.all(), values.len());
        writeln!(
            out,
            "{all}, of these {drawn} of drawn inputs with {values} values of bytes, {again} searched \
             before but for a piece, {another} with another newline, {great} of more than 65,536 bytes"
        )?;
        writeln!(out, "  found in a word, by place: {in_word:?}")?;
        writeln!(out, "  found in the remainder, by place: {in_rest:?}")?;
        writeln!(out, "  not found, by the remainder's bytes: {none:?}")?;
        writeln!(
            out,
            "  not found, by how far behind the next is: {behind:?}"
        )?;
        writeln!(out, "  by how far before the last is: {before:?}")?;
        writeln!(out, "  by where they begin in a word: {starts:?}")
    }
}

#[cfg(test)]
mod tests {
    use super::*;

    impl Bytes {
        /// Counts of which each is so much, and all of them enough.
        pub fn met_everywhere(times: u64) -> Self {
            Self {
                none: [times; 8],
                in_word: [times; 32],
                in_rest: [times; 7],
                starts: [LEAST / 8; 8],
                behind: [times; 8],
                before: [times; 8],
                another: times,
                again: times,
                great: times,
                drawn: LEAST_DRAWN,
                values: (0..=u8::MAX).collect(),
            }
        }
    }

    #[test]
    fn searches_are_counted() {
        let mut bytes = Bytes::default();
        let memory = b"\n(tick 12)\n(settle)\n";
        bytes.take(memory, 1..20, 9);
        bytes.take(memory, 1..12, 9);
        bytes.take(memory, 1..10, 9);
        bytes.take(memory, 3..19, 7);
        bytes.take(memory, 12..19, 7);
        let in_word = bytes.in_word.iter().enumerate();
        let met: Vec<(usize, &u64)> = in_word.filter(|(_, &times)| times > 0).collect();
        assert_eq!(met, [(7, &1), (9, &1)]);
        assert_eq!(bytes.in_rest, [0, 1, 0, 0, 0, 0, 0]);
        assert_eq!(bytes.none, [0, 1, 0, 0, 0, 0, 0, 1]);
        assert_eq!(bytes.starts, [0, 3, 0, 1, 1, 0, 0, 0]);
        assert_eq!(bytes.behind, [2, 0, 0, 0, 0, 0, 0, 0]);
        assert_eq!(bytes.before, [3, 1, 1, 0, 0, 0, 0, 0]);
        assert_eq!(bytes.another, 1);
        assert_eq!((bytes.all(), bytes.great), (5, 0));
        bytes.take(&[0; 65_537], 0..65_537, 65_537);
        bytes.take(&[0; 65_537], 0..65_536, 65_536);
        assert_eq!((bytes.all(), bytes.great), (7, 1));
        assert!(bytes
            .to_string()
            .starts_with("7, of these 0 of drawn inputs"));
    }

    #[test]
    fn what_is_lacking_is_told() {
        let enough = Bytes::met_everywhere(2);
        assert_eq!(enough.lacks(2), None);
        let lacks = |spoil: fn(&mut Bytes), told: &str| {
            let mut bytes = enough.clone();
            spoil(&mut bytes);
            assert_eq!(bytes.lacks(2).as_deref(), Some(told));
        };
        lacks(|bytes| bytes.starts[3] -= 1, "only 2999999");
        let told = "only 499999 of drawn inputs";
        lacks(|bytes| bytes.drawn -= 1, told);
        let told = "only 255 values of bytes";
        lacks(|bytes| _ = bytes.values.pop_last(), told);
        let told = "1 without one, the next one behind 7";
        lacks(|bytes| bytes.behind[7] = 1, told);
        lacks(|bytes| bytes.before[3] = 0, "0 with one before 3");
        lacks(|bytes| bytes.another = 0, "0 with another newline");
        lacks(|bytes| bytes.again = 1, "1 searched again");
        lacks(|bytes| bytes.great = 0, "0 of more than 65,536 bytes");
        lacks(
            |bytes| bytes.none[7] = 1,
            "1 without a newline, remainder 7",
        );
        let told = "1 found in a word, place 31";
        lacks(|bytes| bytes.in_word[31] = 1, told);
        let told = "0 found in the remainder, place 6";
        lacks(|bytes| bytes.in_rest[6] = 0, told);
        let spoil = |bytes: &mut Bytes| (bytes.starts[0], bytes.starts[5]) = (LEAST, 1);
        lacks(spoil, "1 that begin in a word at 5");
    }
}
