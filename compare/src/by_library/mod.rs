//! The comparison through the static library: raw calls on lent words, on runs
//! sound and unsound.

pub mod both_forms;
pub mod carrying;
pub mod lines;
pub mod loads;
pub mod openings;
pub mod reports;
pub mod sound;
pub mod spoil;
pub mod states;
pub mod steps;
pub mod sums;
pub mod ticks;
pub mod together;
pub mod unsound;
pub mod watched;

use crate::counts::Counts;
use crate::difference::Difference;
use crate::draws::Draws;
use crate::pending;
use crate::reference_calls::guarded;

/// One part of the comparison: a drawn case of it.
type Case = fn(&mut Draws, &mut Counts) -> Result<(), Difference>;

/// The parts, and how many cases of each make one round.
const PARTS: [(&str, Case, u64); 12] = [
    ("openings", openings::case, 400),
    ("sound runs", sound::case, 40),
    ("unsound runs", unsound::case, 60),
    ("many ticks", ticks::case, 20),
    ("one processor", steps::case, 4_000),
    ("lines read", lines::reading, 1_500),
    ("lines written", lines::writing, 400),
    ("events together", together::case, 60),
    ("loads", loads::case, 100),
    ("reports", reports::case, 40),
    ("runs carried over", carrying::case, 60),
    ("both forms", both_forms::case, 40),
];

/// Compares so many rounds of every part, and answers the counts of each.
pub fn compare(seed: u64, rounds: u64) -> Result<Vec<(&'static str, Counts)>, Difference> {
    let mut last = pending::Line::new("last.case");
    PARTS
        .into_iter()
        .enumerate()
        .map(|(place, (name, case, cases))| {
            let mut draws = Draws::new(seed.wrapping_add(place as u64));
            let mut counts = Counts::default();
            for number in 0..rounds * cases {
                let which = format!("case {number} of {name}: --rounds {rounds} --seed {seed}");
                last.leave(&which);
                let mut drawn = draws.branch();
                guarded(|| case(&mut drawn, &mut counts)).unwrap_or_else(|| panicked(&which))?;
            }
            Ok((name, counts))
        })
        .collect()
}

/// A panic outside of the calls that are compared, as where a state is made
/// ready.
pub fn panicked(which: &str) -> Result<(), Difference> {
    Err(Difference {
        what: "a panic outside of the calls that are compared".to_owned(),
        name: "panic.case".to_owned(),
        contents: format!("{which}\n").into_bytes(),
    })
}

#[cfg(test)]
mod tests {
    use super::*;

    /// The counts of so many cases of one part, which show no difference.
    pub fn counts_of(case: Case, seed: u64, cases: u64) -> Counts {
        let (mut draws, mut counts) = (Draws::new(seed), Counts::default());
        for _ in 0..cases {
            if let Err(difference) = case(&mut draws, &mut counts) {
                panic!("{}", difference.told());
            }
        }
        counts
    }

    #[test]
    fn a_round_shows_no_difference_and_meets_every_check() {
        let parts = match compare(99, 1) {
            Ok(parts) => parts,
            Err(difference) => panic!("{}", difference.told()),
        };
        let mut all = Counts::default();
        for (_, counts) in &parts {
            assert!(counts.calls > 0);
            all.add(counts);
        }
        assert_eq!(all.met_below(1), []);
    }
}
