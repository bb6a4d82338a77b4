//! Schedules in small pieces, with lines of bytes near a newline.

use super::few;
use crate::counts::Counts;
use std::fmt::{self, Display, Formatter};

/// The most bytes of a piece.
pub const MOST_PIECE: usize = 40;

/// Sorts of lines, besides those that nothing was done to.
#[derive(Clone, Copy, PartialEq, Eq, Debug)]
pub enum Sort {
    /// Some bytes near a newline.
    Near = 0,
    /// A good line with such a byte put in.
    PutIn = 1,
    /// Such bytes, about as many as the longest opening has.
    Wide = 2,
    /// Such bytes, about as many as a line may have.
    Longest = 3,
    /// Such bytes at the end of an input, and no newline.
    Unended = 4,
}

/// Each sort, and what it is called.
const SORTS: [(Sort, &str); 5] = [
    (Sort::Near, "lines near a newline"),
    (Sort::PutIn, "good lines with a byte put in"),
    (Sort::Wide, "lines of some 1,400 bytes"),
    (Sort::Longest, "lines of some 4,800 bytes"),
    (Sort::Unended, "inputs without a last newline"),
];

/// Counts of schedules through the programs.
#[derive(Clone, Debug)]
pub struct Schedules {
    /// Their lines.
    pub lines: Counts,
    /// The inputs, by how many bytes less one their pieces have.
    pub pieces: [u64; MOST_PIECE],
    /// The lines of each sort.
    pub sorts: [u64; 5],
}

impl Default for Schedules {
    fn default() -> Self {
        Self {
            lines: Counts::default(),
            pieces: [0; MOST_PIECE],
            sorts: [0; 5],
        }
    }
}

impl Schedules {
    /// What was met less often: pieces of each size, lines of each sort, and
    /// lines that were accepted.
    pub fn lacks(&self, least: u64) -> Option<String> {
        if let Some(place) = self.pieces.iter().position(|&times| times < least) {
            let times = self.pieces[place];
            return Some(format!("{times} in pieces of {}", place + 1));
        }
        few(&self.named(), least).or_else(|| few(&[(self.lines.accepted, "lines accepted")], least))
    }

    /// The lines of each sort, and what it is called.
    fn named(&self) -> [(u64, &'static str); 5] {
        SORTS.map(|(sort, name)| (self.sorts[sort as usize], name))
    }
}

impl Display for Schedules {
    fn fmt(&self, out: &mut Formatter) -> fmt::Result {
        write!(out, "{}", self.lines)?;
        let inputs: u64 = self.pieces.iter().sum();
        write!(
            out,
            "  {inputs} inputs in pieces of 1 to {MOST_PIECE} bytes"
        )?;
        for (times, name) in self.named() {
            write!(out, ", {times} {name}")?;
        }
        writeln!(out)
    }
}

#[cfg(test)]
mod tests {
    use super::*;

    impl Schedules {
        /// Counts of which each is so much.
        pub fn met_everywhere(times: u64) -> Self {
            Self {
                lines: Counts {
                    accepted: times,
                    ..Counts::default()
                },
                pieces: [times; MOST_PIECE],
                sorts: [times; 5],
            }
        }
    }

    #[test]
    fn what_is_lacking_is_told() {
        let enough = Schedules::met_everywhere(2);
        assert_eq!(enough.lacks(2), None);
        let told = "80 inputs in pieces of 1 to 40 bytes, 2 lines near a newline, 2 good lines";
        assert!(enough.to_string().contains(told), "{enough}");
        let lacks = |spoil: fn(&mut Schedules), told: &str| {
            let mut schedules = enough.clone();
            spoil(&mut schedules);
            assert_eq!(schedules.lacks(2).as_deref(), Some(told));
        };
        lacks(|some| some.pieces[0] = 1, "1 in pieces of 1");
        lacks(|some| some.pieces[39] = 0, "0 in pieces of 40");
        lacks(|some| some.lines.accepted = 1, "1 lines accepted");
        for (sort, name) in SORTS {
            let mut schedules = enough.clone();
            schedules.sorts[sort as usize] = 1;
            assert_eq!(schedules.lacks(2), Some(format!("1 {name}")));
        }
    }
}
