//! The comparison of the search for newlines: words, bytes at hand that grow
//! piece by piece, and schedules in small pieces through the programs.

pub mod bytes;
pub mod memory;
pub mod schedules;
pub mod words;

use self::memory::Memory;
use crate::by_library::panicked;
use crate::difference::Difference;
use crate::draws::Draws;
use crate::pending;
use crate::readers::Readers;
use crate::reference_calls::guarded;
use crate::search_counts::SearchCounts;
use newlines::{before_newline, has_newline};

/// Drawn words of one round.
const WORDS: u64 = 50_000;
/// Drawn cases of bytes at hand of one round.
const BYTES: u64 = 1_000;
/// Schedules of one round.
const SCHEDULES: u64 = 16;

/// Compares so many rounds of searches, and then of schedules.
pub fn compare(readers: Readers, seed: u64, rounds: u64) -> Result<SearchCounts, Difference> {
    let mut counts = searches(seed, rounds)?;
    let mut draws = Draws::new(seed);
    for number in 0..rounds * SCHEDULES {
        let (piece, mut drawn) = (schedules::piece(number), draws.branch());
        schedules::case(readers, piece, &mut drawn, &mut counts.schedules)?;
    }
    Ok(counts)
}

/// Compares words and bytes at hand: what is fixed, and then so many rounds of
/// what is drawn.
fn searches(seed: u64, rounds: u64) -> Result<SearchCounts, Difference> {
    let mut counts = SearchCounts::default();
    let (words, bytes) = (&mut counts.words, &mut counts.bytes);
    let mut last = pending::Line::new("last.case");
    last.leave("the fixed words");
    words::fixed(has_newline, words)?;
    last.leave("the fixed bytes at hand");
    let mut memory = Memory::default();
    bytes::fixed(before_newline, &mut memory, bytes)?;
    bytes::long(before_newline, &mut memory, bytes)?;
    let mut draws = Draws::new(seed);
    for round in 0..rounds {
        let mut drawn = draws.branch();
        last.leave(&format!("drawn words of round {round}: --seed {seed}"));
        words::drawn(has_newline, WORDS, &mut drawn, words)?;
        for number in 0..BYTES {
            let which = format!("bytes at hand {number} of round {round}: --seed {seed}");
            last.leave(&which);
            guarded(|| bytes::drawn(before_newline, &mut memory, &mut drawn, bytes))
                .unwrap_or_else(|| panicked(&which))?;
        }
    }
    Ok(counts)
}

#[cfg(test)]
mod tests {
    use super::*;

    #[test]
    fn some_rounds_show_no_difference() {
        let counts = match searches(98, 25) {
            Ok(counts) => counts,
            Err(difference) => panic!("{}", difference.told()),
        };
        assert_eq!(counts.words.lacks(100), None, "{counts}");
        assert_eq!(counts.bytes.lacks(100), None, "{counts}");
    }
}
