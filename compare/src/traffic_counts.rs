//! What was met of traffic: messages of each kind sent and delivered, sums that
//! wrapped, views with all that can be posted for one, and reports.

use crate::kinds::{add, each, lacks, told};
use crate::report_counts::Reports;
use crate::words::{sums_of, RUN_WORDS};
use reference::{ByKind, Sums, Traffic};
use std::fmt::{self, Display, Formatter};

/// What is counted of "at most 2n view messages and view certificates
/// together".
const BOUND_MET: &str = "views with 2n view messages and view certificates";

/// Counts of traffic.
#[derive(Clone, Default, Debug)]
pub struct TrafficCounts {
    /// The messages sent, by the library's calls or in the program's reports.
    pub sent: ByKind,
    /// Those delivered.
    pub delivered: ByKind,
    /// Such calls and reports with waits above 0.
    pub waited: u64,
    /// Per sum, the calls in which it came to 2^64.
    pub wrapped: Sums,
    /// Views of opened runs for which 2n view messages and view certificates
    /// were posted, the most that there are.
    pub bound_met: u64,
    /// The reports.
    pub reports: Reports,
}

impl TrafficCounts {
    /// Whether a message was sent or delivered.
    fn any_message(&self) -> bool {
        self.sent != [0; 4] || self.delivered != [0; 4]
    }

    /// Takes in a call that moved a run: its words before and after.
    pub fn moved(&mut self, before: &[u64], after: &[u64]) {
        if before.len() < RUN_WORDS {
            return;
        }
        let (old, new) = (sums_of(before), sums_of(after));
        let more = |old: &ByKind, new: &ByKind| each(old, new, |old, new| new.wrapping_sub(old));
        let wrapped = |old: &ByKind, new: &ByKind| each(old, new, |old, new| u64::from(new < old));
        add(&mut self.sent, &more(&old.sent, &new.sent));
        add(&mut self.delivered, &more(&old.delivered, &new.delivered));
        self.waited += u64::from(new.waits != old.waits);
        add(&mut self.wrapped.sent, &wrapped(&old.sent, &new.sent));
        let delivered = wrapped(&old.delivered, &new.delivered);
        add(&mut self.wrapped.delivered, &delivered);
        self.wrapped.waits += u64::from(new.waits < old.waits);
    }

    /// Takes in a report of the program on an input with so many accepted
    /// openings, or that there was no run.
    pub fn printed(&mut self, report: Option<&Traffic>, openings: u64) {
        let Some(report) = report else {
            self.reports.nothing += 1;
            return;
        };
        self.reports.give(report);
        self.reports.later += u64::from(openings > 1);
        add(&mut self.sent, &report.sums.sent);
        add(&mut self.delivered, &report.sums.delivered);
        self.waited += u64::from(report.sums.waits > 0);
    }

    /// Adds the counts of another part.
    pub fn add(&mut self, other: &Self) {
        add(&mut self.sent, &other.sent);
        add(&mut self.delivered, &other.delivered);
        self.waited += other.waited;
        add(&mut self.wrapped.sent, &other.wrapped.sent);
        add(&mut self.wrapped.delivered, &other.wrapped.delivered);
        self.wrapped.waits += other.wrapped.waits;
        self.bound_met += other.bound_met;
        self.reports.add(&other.reports);
    }

    /// What the program met less often: each kind sent and delivered, waits,
    /// views with all that can be posted for one, and what is counted of its
    /// reports.
    pub fn program_lacks(&self, least: u64) -> Option<String> {
        let lacks = self.lacks(least);
        lacks.or_else(|| self.reports.program_lacks(least))
    }

    /// What the library met less often: as the program, but for what is counted
    /// of its own reports; and each sum wrapped.
    pub fn library_lacks(&self, least: u64) -> Option<String> {
        let Sums {
            sent,
            delivered,
            waits,
        } = &self.wrapped;
        if *waits < least {
            return Some(format!("{waits} calls in which waits wrapped"));
        }
        lacks("sent wrapped", sent, least)
            .or_else(|| lacks("delivered wrapped", delivered, least))
            .or_else(|| self.lacks(least))
            .or_else(|| self.reports.library_lacks(least))
    }

    /// What either met less often.
    fn lacks(&self, least: u64) -> Option<String> {
        if self.waited < least {
            return Some(format!("{} with waits", self.waited));
        }
        if self.bound_met < least {
            return Some(format!("{} {BOUND_MET}", self.bound_met));
        }
        lacks("sent", &self.sent, least).or_else(|| lacks("delivered", &self.delivered, least))
    }
}

impl Display for TrafficCounts {
    fn fmt(&self, out: &mut Formatter) -> fmt::Result {
        if self.any_message() {
            let (sent, delivered) = (told(&self.sent), told(&self.delivered));
            writeln!(
                out,
                "  traffic: sent {sent}; delivered {delivered}; waits in {}",
                self.waited
            )?;
        }
        if self.wrapped != Sums::default() {
            let Sums {
                sent,
                delivered,
                waits,
            } = &self.wrapped;
            let (sent, delivered) = (told(sent), told(delivered));
            writeln!(
                out,
                "  sums wrapped: sent {sent}; delivered {delivered}; waits {waits}"
            )?;
        }
        if self.bound_met > 0 {
            writeln!(out, "  {BOUND_MET}: {}", self.bound_met)?;
        }
        write!(out, "{}", self.reports)
    }
}

#[cfg(test)]
mod tests {
    use super::*;
    use crate::words::{DELIVERED, SENT, WAITS};

    impl TrafficCounts {
        /// Counts of which each is so much.
        pub fn met_everywhere(times: u64) -> Self {
            Self {
                sent: [times; 4],
                delivered: [times; 4],
                waited: times,
                wrapped: Sums {
                    sent: [times; 4],
                    delivered: [times; 4],
                    waits: times,
                },
                bound_met: times,
                reports: Reports::met_everywhere(times),
            }
        }
    }

    #[test]
    fn what_moved_is_counted() {
        let (mut before, mut after) = (vec![3; RUN_WORDS], vec![3; RUN_WORDS]);
        let mut traffic = TrafficCounts::default();
        traffic.moved(&before, &after);
        assert!(!traffic.any_message() && traffic.waited == 0);
        after[SENT + 2] = 7;
        after[WAITS] = 4;
        traffic.moved(&before, &after);
        assert_eq!((traffic.sent, traffic.waited), ([0, 0, 4, 0], 1));
        assert_eq!(traffic.wrapped, Sums::default());
        before[DELIVERED] = u64::MAX;
        after[DELIVERED] = 1;
        traffic.moved(&before, &after);
        assert_eq!(traffic.delivered, [2, 0, 0, 0]);
        before[WAITS] = 5;
        before[SENT + 3] = 4;
        traffic.moved(&before, &after);
        let wrapped = Sums {
            sent: [0, 0, 0, 1],
            delivered: [2, 0, 0, 0],
            waits: 1,
        };
        assert_eq!(traffic.wrapped, wrapped);
        traffic.moved(&before[..9], &after[..9]);
        assert_eq!(traffic.waited, 3);
    }

    #[test]
    fn what_is_lacking_is_told() {
        let enough = TrafficCounts::met_everywhere(2);
        assert_eq!(enough.program_lacks(2).or(enough.library_lacks(2)), None);
        let lacks =
            |spoil: fn(&mut TrafficCounts), program: Option<&str>, library: Option<&str>| {
                let mut traffic = enough.clone();
                spoil(&mut traffic);
                assert_eq!(traffic.program_lacks(2).as_deref(), program);
                assert_eq!(traffic.library_lacks(2).as_deref(), library);
            };
        let both = |spoil, told| lacks(spoil, Some(told), Some(told));
        both(|traffic| traffic.sent[1] = 0, "vote sent");
        both(|traffic| traffic.delivered[3] = 1, "qc delivered");
        both(|traffic| traffic.waited = 1, "1 with waits");
        let told = "1 views with 2n view messages and view certificates";
        both(|traffic| traffic.bound_met = 1, told);
        let told = "0 calls in which waits wrapped";
        lacks(|traffic| traffic.wrapped.waits = 0, None, Some(told));
        let told = "view sent wrapped";
        lacks(|traffic| traffic.wrapped.sent[0] = 1, None, Some(told));
        let told = "qc delivered wrapped";
        lacks(|traffic| traffic.wrapped.delivered[3] = 1, None, Some(told));
        let told = "1 reports of nothing";
        lacks(|traffic| traffic.reports.nothing = 1, Some(told), None);
        let told = "1 reports that do not add up";
        lacks(|traffic| traffic.reports.uneven = 1, None, Some(told));
    }

    #[test]
    fn reports_of_the_program_are_counted() {
        let mut traffic = TrafficCounts::default();
        let sums = Sums {
            sent: [1, 2, 3, 4],
            delivered: [0, 1, 0, 1],
            waits: 5,
        };
        let held = [1, 1, 3, 3];
        traffic.printed(Some(&Traffic { sums, held }), 1);
        traffic.printed(Some(&Traffic { sums, held }), 2);
        traffic.printed(None, 0);
        traffic.bound_met = 3;
        traffic.wrapped.waits = 4;
        let mut twice = traffic.clone();
        twice.add(&traffic);
        let told = "  traffic: sent view 4, vote 8, vc 12, qc 16; \
                    delivered view 0, vote 4, vc 0, qc 4; waits in 4\n  \
                    sums wrapped: sent view 0, vote 0, vc 0, qc 0; \
                    delivered view 0, vote 0, vc 0, qc 0; waits 8\n  \
                    views with 2n view messages and view certificates: 6\n  \
                    reports: 4, held view 4, vote 4, vc 12, qc 12; \
                    2 of a later opening; 2 besides, of no run\n";
        assert_eq!(twice.to_string(), told);
    }
}
