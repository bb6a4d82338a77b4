//! What was met: printed at the end, so that one sees which checks were.

use crate::carry_counts::Carried;
use crate::load_counts::Loads;
use crate::traffic_counts::TrafficCounts;
use crate::turn_counts::Turns;
use reference::Answer;
use std::fmt::{self, Display, Formatter};

/// Counts of lines or calls and their answers.
#[derive(Clone, Default, Debug)]
pub struct Counts {
    /// Lines, or calls of the library; of a call that applies events together
    /// each of them.
    pub calls: u64,
    /// Events among them, accepted or refused.
    pub events: u64,
    /// Openings among them, accepted or refused.
    pub openings: u64,
    /// Single ticks done.
    pub ticks: u64,
    /// Accepted ones.
    pub accepted: u64,
    /// Per check, the accepted runs of ticks that it ended.
    pub stopped: [u64; 19],
    /// Per check, how often it refused a call or ended a run of ticks.
    pub met: [u64; 19],
    /// Lists of events, each from an accepted opening on.
    pub lists: u64,
    /// Lists that came under the second sentence of demand 3.
    pub due: u64,
    /// The calls that apply events together.
    pub together: Together,
    /// The calls for loads.
    pub loads: Loads,
    /// The messages, sums and reports.
    pub traffic: TrafficCounts,
    /// The runs carried over from one form of network to the other.
    pub carried: Carried,
    /// What follows the views per leader.
    pub turns: Turns,
}

/// Counts of calls that apply events together.
#[derive(Clone, Default, Debug)]
pub struct Together {
    /// The calls.
    pub calls: u64,
    /// Per check, those that it refused whole.
    pub refused: [u64; 19],
    /// Those with words behind the last whole event.
    pub behind: u64,
    /// Those in which the time came to the limit of clocks and time: check 9
    /// refused an event after another one was done.
    pub outlasted: u64,
}

impl Counts {
    /// Takes in one answer.
    pub fn answer(&mut self, answer: &Answer) {
        self.calls += 1;
        match *answer {
            Answer::Done { ticks, .. } => {
                self.accepted += 1;
                self.ticks += ticks;
            }
            Answer::Stopped { ticks, check, .. } => {
                self.ticks += ticks;
                self.stop(check);
            }
            Answer::Refused(check) => self.check(check),
        }
    }

    /// Takes in the number that a call of the library answered, 0 being none.
    pub fn call(&mut self, check: u64) {
        self.calls += 1;
        if check == 0 {
            self.accepted += 1;
        } else {
            self.check(check);
        }
    }

    /// Takes in such a number, and by how much the time rose: a check that
    /// ends some ticks has accepted them.
    pub fn moved(&mut self, check: u64, ticks: u64) {
        self.ticks += ticks;
        if check != 0 && ticks > 0 {
            self.calls += 1;
            self.stop(check);
        } else {
            self.call(check);
        }
    }

    /// Takes in the number that a call for events together answered, and the
    /// words that it left of the events.
    pub fn together(&mut self, check: u64, words: &[u64]) {
        self.together.calls += 1;
        if check != 0 {
            self.together.refused[check as usize] += 1;
            return;
        }
        let (answers, behind) = words.as_chunks();
        let (mut done, mut outlasted) = (false, false);
        for &[_, check, ticks, _] in answers {
            self.events += 1;
            self.moved(check, ticks);
            outlasted |= done && check == 9;
            done |= check == 0 || ticks > 0;
        }
        self.together.behind += u64::from(!behind.is_empty());
        self.together.outlasted += u64::from(outlasted);
    }

    /// A run of ticks that a check ended.
    fn stop(&mut self, check: u64) {
        self.accepted += 1;
        if let Some(times) = self.stopped.get_mut(check as usize) {
            *times += 1;
        }
        self.check(check);
    }

    fn check(&mut self, check: u64) {
        if let Some(times) = self.met.get_mut(check as usize) {
            *times += 1;
        }
    }

    /// Adds the counts of another part.
    pub fn add(&mut self, other: &Self) {
        self.calls += other.calls;
        self.events += other.events;
        self.openings += other.openings;
        self.ticks += other.ticks;
        self.accepted += other.accepted;
        self.lists += other.lists;
        self.due += other.due;
        add_by_check(&mut self.met, &other.met);
        add_by_check(&mut self.stopped, &other.stopped);
        self.together.add(&other.together);
        self.loads.add(&other.loads);
        self.traffic.add(&other.traffic);
        self.carried.add(&other.carried);
        self.turns.add(&other.turns);
    }

    /// The checks from 1 to 18 that were met less often.
    pub fn met_below(&self, least: u64) -> Vec<usize> {
        (1..=18).filter(|&check| self.met[check] < least).collect()
    }

    /// Those of them that an event can meet.
    pub fn met_by_events_below(&self, least: u64) -> Vec<usize> {
        let mut checks = self.met_below(least);
        checks.retain(|check| !(2..=8).contains(check));
        checks
    }

    /// The checks that end ticks, of those that ended ticks less often.
    pub fn stopped_below(&self, least: u64) -> Vec<usize> {
        (16..=18)
            .filter(|&check| self.stopped[check] < least)
            .collect()
    }
}

impl Together {
    fn add(&mut self, other: &Self) {
        self.calls += other.calls;
        self.behind += other.behind;
        self.outlasted += other.outlasted;
        add_by_check(&mut self.refused, &other.refused);
    }

    /// Whether each of them was met so often.
    pub fn met(&self, least: u64) -> bool {
        let [by_1, by_9] = [1, 9].map(|check| self.refused[check]);
        by_1.min(by_9).min(self.behind).min(self.outlasted) >= least
    }
}

impl Display for Together {
    fn fmt(&self, out: &mut Formatter) -> fmt::Result {
        write!(
            out,
            "in {} calls, {} with words behind the last event, {} in which the time came to its \
             limit; check: calls refused whole: {}",
            self.calls,
            self.behind,
            self.outlasted,
            by_check(&self.refused)
        )
    }
}

impl Display for Counts {
    fn fmt(&self, out: &mut Formatter) -> fmt::Result {
        writeln!(
            out,
            "{}, of these {} events, {} openings; {} accepted; {} single ticks",
            self.calls, self.events, self.openings, self.accepted, self.ticks
        )?;
        writeln!(out, "  check: times met: {}", by_check(&self.met))?;
        if self.stopped.iter().any(|&times| times > 0) {
            writeln!(out, "  check: ticks ended: {}", by_check(&self.stopped))?;
        }
        if self.lists > 0 {
            writeln!(
                out,
                "  demand 3: {} lists of events watched, {} of them came under its second sentence",
                self.lists, self.due
            )?;
        }
        if self.together.calls > 0 {
            writeln!(out, "  {}", self.together)?;
        }
        if !self.loads.is_empty() {
            write!(out, "  {}", self.loads)?;
        }
        write!(out, "{}{}{}", self.turns, self.traffic, self.carried)
    }
}

/// Adds other counts per check.
pub(crate) fn add_by_check(times: &mut [u64; 19], more: &[u64; 19]) {
    for (times, more) in times.iter_mut().zip(more) {
        *times += more;
    }
}

/// Those that are not 0.
pub(crate) fn by_check(times: &[u64; 19]) -> String {
    by_number(times)
}

/// Those that are not 0, each with its place.
pub(crate) fn by_number(times: &[u64]) -> String {
    let some = times.iter().enumerate().filter(|(_, &times)| times > 0);
    let told: Vec<String> = some
        .map(|(number, times)| format!("{number}: {times}"))
        .collect();
    told.join(", ")
}

#[cfg(test)]
mod tests {
    use super::*;

    #[test]
    fn answers_are_counted_by_check() {
        let mut counts = Counts::default();
        counts.answer(&Answer::Done { ticks: 2, held: 1 });
        counts.answer(&Answer::Stopped {
            ticks: 3,
            held: 1,
            check: 16,
        });
        counts.answer(&Answer::Refused(16));
        counts.call(1);
        counts.moved(18, 4);
        counts.moved(18, 0);
        assert_eq!((counts.calls, counts.accepted, counts.ticks), (6, 3, 9));
        assert_eq!((counts.met[16], counts.met[1], counts.met[18]), (2, 1, 2));
        assert_eq!(counts.met_below(1).len(), 15);
        assert_eq!(counts.met_by_events_below(1).len(), 8);
        assert_eq!(counts.stopped_below(1), [17]);
    }

    #[test]
    fn events_together_are_counted_one_by_one() {
        let mut counts = Counts::default();
        counts.together(0, &[4, 0, 0, 8, 5, 16, 2, 8, 4, 15, 0, 8]);
        counts.together(0, &[4, 9, 0, 8, 5, 0]);
        assert_eq!((counts.calls, counts.events, counts.accepted), (4, 4, 2));
        assert_eq!((counts.ticks, counts.stopped[16], counts.met[9]), (2, 1, 1));
        assert_eq!((counts.together.behind, counts.together.outlasted), (1, 0));
        counts.together(0, &[5, 17, 1, 8, 0, 1, 0, 8, 4, 9, 0, 8]);
        counts.together(9, &[4, 0, 0, 0]);
        assert!(!counts.together.met(1));
        counts.together(1, &[]);
        assert!(counts.together.met(1));
        assert_eq!((counts.together.calls, counts.calls), (5, 7));
    }
}
