//! What was met of reports: of which runs they were given, what was held in
//! them, and what refused them.

use crate::kinds::{add, lacks, told};
use crate::report::adds_up;
use reference::{ByKind, Traffic};
use std::fmt::{self, Display, Formatter};

/// Why the library refuses a report: for one thing alone, or for several.
#[derive(Clone, Copy, PartialEq, Eq, Debug)]
pub enum Refusal {
    /// The run has too few words.
    FewRunWords = 0,
    /// Too few are lent for the report.
    FewReportWords = 1,
    /// The settled word is above 1.
    SettledWord = 2,
    /// The time is at or above its limit.
    Late = 3,
    /// The run is unsound otherwise.
    Unsound = 4,
    /// More than one of these.
    Several = 5,
}

/// What each of them is called.
const REFUSALS: [&str; 6] = [
    "too few run words",
    "too few report words",
    "a settled word above 1",
    "a time at its limit",
    "a run unsound otherwise",
    "several of these",
];

/// Counts of reports.
#[derive(Clone, Default, Debug)]
pub struct Reports {
    /// Those of a run.
    pub given: u64,
    /// Those of a run that a later opening of an input has begun.
    pub later: u64,
    /// Those of a run handed in of which sent is not delivered plus held.
    pub uneven: u64,
    /// The messages held in them.
    pub held: ByKind,
    /// Those of no run.
    pub nothing: u64,
    /// Those refused, by [`Refusal`].
    pub refused: [u64; 6],
}

impl Reports {
    /// Takes in a report of a run.
    pub fn give(&mut self, report: &Traffic) {
        self.given += 1;
        self.uneven += u64::from(!adds_up(report));
        add(&mut self.held, &report.held);
    }

    /// Takes in a report that was refused.
    pub const fn refuse(&mut self, refusal: Refusal) {
        self.refused[refusal as usize] += 1;
    }

    /// Adds the counts of another part.
    pub fn add(&mut self, other: &Self) {
        self.given += other.given;
        self.later += other.later;
        self.uneven += other.uneven;
        self.nothing += other.nothing;
        add(&mut self.held, &other.held);
        for (times, more) in self.refused.iter_mut().zip(&other.refused) {
            *times += more;
        }
    }

    /// What the program met less often: as either, and reports of nothing and
    /// of later openings.
    pub fn program_lacks(&self, least: u64) -> Option<String> {
        if self.nothing < least {
            return Some(format!("{} reports of nothing", self.nothing));
        }
        if self.later < least {
            return Some(format!("{} reports of a later opening", self.later));
        }
        self.lacks(least)
    }

    /// What the library met less often: as either, and runs handed in of which
    /// the sums do not add up, and each reason to refuse.
    pub fn library_lacks(&self, least: u64) -> Option<String> {
        if self.uneven < least {
            return Some(format!("{} reports that do not add up", self.uneven));
        }
        let mut named = REFUSALS.iter().zip(self.refused);
        if let Some((name, times)) = named.find(|&(_, times)| times < least) {
            return Some(format!("{times} reports refused for {name}"));
        }
        self.lacks(least)
    }

    /// What either met less often: reports of a run, and messages of each kind
    /// held in them.
    pub fn lacks(&self, least: u64) -> Option<String> {
        if self.given < least {
            return Some(format!("{} reports of a run", self.given));
        }
        lacks("held", &self.held, least)
    }
}

impl Display for Reports {
    fn fmt(&self, out: &mut Formatter) -> fmt::Result {
        let refused: u64 = self.refused.iter().sum();
        if self.given + self.nothing + refused == 0 {
            return Ok(());
        }
        write!(out, "  reports: {}, held {}", self.given, told(&self.held))?;
        for (times, what) in [
            (self.later, "of a later opening"),
            (self.uneven, "that do not add up"),
            (self.nothing, "besides, of no run"),
        ] {
            if times > 0 {
                write!(out, "; {times} {what}")?;
            }
        }
        writeln!(out)?;
        if refused > 0 {
            let named = REFUSALS.iter().zip(self.refused);
            let times: Vec<String> = named
                .map(|(name, times)| format!("{name} {times}"))
                .collect();
            writeln!(out, "  reports refused: {}", times.join(", "))?;
        }
        Ok(())
    }
}

#[cfg(test)]
mod tests {
    use super::*;
    use reference::Sums;

    impl Reports {
        /// Counts of which each is so much.
        pub fn met_everywhere(times: u64) -> Self {
            Self {
                given: times,
                later: times,
                uneven: times,
                held: [times; 4],
                nothing: times,
                refused: [times; 6],
            }
        }
    }

    #[test]
    fn what_is_lacking_is_told() {
        let enough = Reports::met_everywhere(2);
        assert_eq!(enough.program_lacks(2).or(enough.library_lacks(2)), None);
        let lacks = |spoil: fn(&mut Reports), program: Option<&str>, library: Option<&str>| {
            let mut reports = enough.clone();
            spoil(&mut reports);
            assert_eq!(reports.program_lacks(2).as_deref(), program);
            assert_eq!(reports.library_lacks(2).as_deref(), library);
        };
        let both = |spoil, told| lacks(spoil, Some(told), Some(told));
        both(|reports| reports.given = 1, "1 reports of a run");
        both(|reports| reports.held[2] = 1, "vc held");
        let told = "1 reports of nothing";
        lacks(|reports| reports.nothing = 1, Some(told), None);
        let told = "0 reports of a later opening";
        lacks(|reports| reports.later = 0, Some(told), None);
        let told = "1 reports that do not add up";
        lacks(|reports| reports.uneven = 1, None, Some(told));
        for (place, name) in REFUSALS.into_iter().enumerate() {
            let mut reports = enough.clone();
            reports.refused[place] = 1;
            let told = format!("1 reports refused for {name}");
            assert_eq!(reports.library_lacks(2), Some(told));
            assert_eq!(reports.program_lacks(2), None);
        }
    }

    #[test]
    fn reports_are_counted() {
        let mut reports = Reports::default();
        assert_eq!(reports.to_string(), "");
        let sums = Sums {
            sent: [4, 5, 0, 1],
            ..Sums::default()
        };
        let held = [4, 5, 0, 1];
        reports.give(&Traffic { sums, held });
        assert_eq!((reports.given, reports.uneven), (1, 0));
        reports.give(&Traffic {
            sums: Sums::default(),
            held,
        });
        reports.refuse(Refusal::Late);
        reports.nothing = 3;
        let mut twice = reports.clone();
        twice.add(&reports);
        let told = "  reports: 4, held view 16, vote 20, vc 0, qc 4; 2 that do not add up; \
                    6 besides, of no run\n  \
                    reports refused: too few run words 0, too few report words 0, \
                    a settled word above 1 0, a time at its limit 2, \
                    a run unsound otherwise 0, several of these 0\n";
        assert_eq!(twice.to_string(), told);
    }
}
