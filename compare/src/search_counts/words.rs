//! Words that were looked at.

use super::{few, few_in};
use crate::near::{NEAR, NEWLINE};
use std::fmt::{self, Display, Formatter};

/// The words that the gate's comparison has, at least.
const LEAST: u64 = 2_000_000;

/// Counts of words.
#[derive(Clone, Default, Debug)]
pub struct Words {
    /// Those without a newline.
    pub none: u64,
    /// Those of them of which every byte is near one.
    pub near: u64,
    /// Those with one newline, by its place, the lowest byte first.
    pub alone: [u64; 8],
    /// Those with several.
    pub several: u64,
}

impl Words {
    /// Takes in a word.
    pub fn take(&mut self, word: u64) {
        let bytes = word.to_le_bytes();
        let newlines = bytes.iter().filter(|&&byte| byte == NEWLINE).count();
        match bytes.iter().position(|&byte| byte == NEWLINE) {
            None => {
                self.none += 1;
                self.near += u64::from(bytes.iter().all(|byte| NEAR.contains(byte)));
            }
            Some(place) if newlines == 1 => self.alone[place] += 1,
            Some(_) => self.several += 1,
        }
    }

    /// All of them.
    pub fn all(&self) -> u64 {
        self.none + self.alone.iter().sum::<u64>() + self.several
    }

    /// What was met less often.
    pub fn lacks(&self, least: u64) -> Option<String> {
        let all = self.all();
        if all < LEAST {
            return Some(format!("only {all}"));
        }
        let rows = [
            (self.none, "without a newline"),
            (self.near, "near one"),
            (self.several, "with several"),
        ];
        few(&rows, least).or_else(|| few_in(&self.alone, "with the only one in place", least))
    }
}

impl Display for Words {
    fn fmt(&self, out: &mut Formatter) -> fmt::Result {
        let Self {
            none,
            near,
            alone,
            several,
        } = self;
        let all = self.all();
        writeln!(
            out,
            "{all}, of these {none} without a newline, {near} of them near one; {several} with several"
        )?;
        writeln!(out, "  with one, by its place: {alone:?}")
    }
}

#[cfg(test)]
mod tests {
    use super::*;

    impl Words {
        /// Counts of which each is so much, and all of them enough.
        pub fn met_everywhere(times: u64) -> Self {
            Self {
                none: LEAST,
                near: times,
                alone: [times; 8],
                several: times,
            }
        }
    }

    #[test]
    fn words_are_counted() {
        let mut words = Words::default();
        for bytes in [b"(settle)", b"\x0B\x8A\r\xFF\0\x80\x7F\x0E", b"(settle\n"] {
            words.take(u64::from_le_bytes(*bytes));
        }
        words.take(0x0A0B_0000_0000_000A);
        assert_eq!((words.none, words.near, words.several), (2, 1, 1));
        assert_eq!(words.alone, [0, 0, 0, 0, 0, 0, 0, 1]);
        assert_eq!(words.all(), 4);
        assert!(words.to_string().starts_with("4, of these 2 without"));
    }

    #[test]
    fn what_is_lacking_is_told() {
        let enough = Words::met_everywhere(2);
        assert_eq!(enough.lacks(2), None);
        let lacks = |spoil: fn(&mut Words), told: &str| {
            let mut words = enough.clone();
            spoil(&mut words);
            assert_eq!(words.lacks(2).as_deref(), Some(told));
        };
        lacks(|words| words.none -= 100, "only 1999918");
        lacks(|words| words.near = 1, "1 near one");
        lacks(|words| words.several = 0, "0 with several");
        let told = "1 with the only one in place 7";
        lacks(|words| words.alone[7] = 1, told);
        let spoil = |words: &mut Words| (words.none, words.several) = (1, LEAST);
        lacks(spoil, "1 without a newline");
    }
}
