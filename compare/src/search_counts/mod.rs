//! What the search for newlines met: words, bytes at hand, and schedules.

pub mod bytes;
pub mod schedules;
pub mod words;

use self::bytes::Bytes;
use self::schedules::Schedules;
use self::words::Words;
use std::fmt::{self, Display, Formatter};

/// Counts of the search for newlines.
#[derive(Clone, Default, Debug)]
pub struct SearchCounts {
    /// The words.
    pub words: Words,
    /// The searches of bytes at hand.
    pub bytes: Bytes,
    /// The schedules.
    pub schedules: Schedules,
}

impl SearchCounts {
    /// What was met less often, or words and searches in all.
    pub fn lacks(&self, least: u64) -> Option<String> {
        let words = self.words.lacks(least).map(|few| ("words", few));
        let bytes = || self.bytes.lacks(least).map(|few| ("bytes at hand", few));
        let schedules = || self.schedules.lacks(least).map(|few| ("schedules", few));
        let (part, few) = words.or_else(bytes).or_else(schedules)?;
        Some(format!("{part}: {few}"))
    }
}

impl Display for SearchCounts {
    fn fmt(&self, out: &mut Formatter) -> fmt::Result {
        write!(out, "search, words: {}", self.words)?;
        write!(out, "search, bytes at hand: {}", self.bytes)?;
        write!(out, "search, program, lines: {}", self.schedules)
    }
}

/// The first of these counts that is less.
fn few(rows: &[(u64, &str)], least: u64) -> Option<String> {
    let (times, name) = rows.iter().find(|(times, _)| *times < least)?;
    Some(format!("{times} {name}"))
}

/// The first place of which the count is less.
fn few_in(times: &[u64], name: &str, least: u64) -> Option<String> {
    let place = times.iter().position(|&times| times < least)?;
    Some(format!("{} {name} {place}", times[place]))
}

#[cfg(test)]
mod tests {
    use super::*;

    impl SearchCounts {
        /// Counts of which each is so much, and words and searches in all
        /// enough.
        pub fn met_everywhere(times: u64) -> Self {
            Self {
                words: Words::met_everywhere(times),
                bytes: Bytes::met_everywhere(times),
                schedules: Schedules::met_everywhere(times),
            }
        }
    }

    #[test]
    fn what_is_lacking_is_told_of_each_part() {
        let enough = SearchCounts::met_everywhere(2);
        assert_eq!(enough.lacks(2), None);
        let lacks = |spoil: fn(&mut SearchCounts), told: &str| {
            let mut counts = enough.clone();
            spoil(&mut counts);
            let missing = counts.lacks(2).unwrap_or_default();
            assert!(missing.starts_with(told), "{missing}");
        };
        lacks(|counts| counts.words = Words::default(), "words: only 0");
        let told = "bytes at hand: only 0";
        lacks(|counts| counts.bytes = Bytes::default(), told);
        let told = "schedules: 0 in pieces of 1";
        lacks(|counts| counts.schedules = Schedules::default(), told);
    }
}
