//! What a comparison met, in a few lines, and whether that is enough.

use crate::counts::Counts;
use crate::search_counts::SearchCounts;
use std::fmt::{self, Display, Formatter};

/// The events that the gate's comparison has besides those of loads, at least.
const LEAST_EVENTS: u64 = 200_000;
/// How often it meets each check on each way, and how often 16, 17 and 18 each
/// end ticks there, at least; and all that is counted of events together, of
/// loads, of traffic, of runs carried over, of views per leader and of the
/// search for newlines.
const LEAST_MET: u64 = 5;

/// What a comparison met.
#[derive(Clone, Debug)]
pub struct Summary {
    /// How many rounds it had.
    pub rounds: u64,
    /// The search for newlines.
    pub search: SearchCounts,
    /// Through the program.
    pub program: Counts,
    /// Through the program that makes loads.
    pub generator: Counts,
    /// Through the library, part by part.
    pub library: Vec<(&'static str, Counts)>,
}

impl Summary {
    /// All parts together.
    pub fn all(&self) -> Counts {
        let mut all = self.program.clone();
        all.add(&self.search.schedules.lines);
        all.add(&self.generator);
        all.add(&self.library(|_| true));
        all
    }

    /// Such parts of the library together.
    fn library(&self, such: impl Fn(&Counts) -> bool) -> Counts {
        let mut some = Counts::default();
        for (_, counts) in self.library.iter().filter(|(_, counts)| such(counts)) {
            some.add(counts);
        }
        some
    }

    /// What is missing of a comparison that says something: enough events,
    /// every check met on both ways and by events together, and every one that
    /// ends ticks; all that is counted of calls for events together and for
    /// loads, of traffic, of runs carried over, of views per leader and of the
    /// search for newlines; reports of loads; demand 3 due whole as often as
    /// there are rounds.
    pub fn missing(&self) -> Option<String> {
        let alone = |counts: &Counts| counts.together.calls == 0 && counts.loads.is_empty();
        let library = self.library(alone);
        let together = self.library(|counts| counts.together.calls > 0);
        let all = self.all();
        let events = all.events - all.loads.events();
        if events < LEAST_EVENTS {
            return Some(format!("only {events} events"));
        }
        let few = together.met_by_events_below(LEAST_MET);
        for (way, counts, few) in [
            ("program", &self.program, self.program.met_below(LEAST_MET)),
            ("library", &library, library.met_below(LEAST_MET)),
            ("events together", &together, few),
        ] {
            if let Some(check) = few.first() {
                return Some(format!("check {check} was hardly met, {way}"));
            }
            if let Some(check) = counts.stopped_below(LEAST_MET).first() {
                return Some(format!("check {check} hardly ended ticks, {way}"));
            }
        }
        if !together.together.met(LEAST_MET) {
            return Some(format!("events together, {}", together.together));
        }
        if let Some(few) = self.counted_too_little() {
            return Some(few);
        }
        let (due, calls) = (self.program.due, library.due);
        (due < self.rounds || calls == 0).then(|| {
            format!("demand 3's second sentence was due {due} times, through the library {calls}")
        })
    }

    /// What was met less often of all that is counted of loads, of traffic, of
    /// runs carried over, of views per leader and of the search for newlines.
    fn counted_too_little(&self) -> Option<String> {
        let (program, generator) = (&self.program.traffic, &self.generator);
        let loads = self.library(|counts| !counts.loads.is_empty()).loads;
        let all = self.library(|_| true);
        let (library, carried, turns) = (all.traffic, all.carried, all.turns);
        let of_program = self.program.turns.program_lacks(LEAST_MET);
        let parts = [
            ("search for newlines", self.search.lacks(LEAST_MET)),
            (
                "loads of the program",
                generator.loads.program_lacks(LEAST_MET),
            ),
            (
                "reports of loads",
                generator.traffic.reports.lacks(LEAST_MET),
            ),
            ("loads of the library", loads.library_lacks(LEAST_MET)),
            ("traffic of the program", program.program_lacks(LEAST_MET)),
            ("traffic of the library", library.library_lacks(LEAST_MET)),
            ("runs carried over", carried.lacks(LEAST_MET)),
            ("views per leader, program", of_program),
            (
                "views per leader, loads of the program",
                generator.turns.loads_lack(LEAST_MET),
            ),
            ("views per leader, library", turns.library_lacks(LEAST_MET)),
        ];
        let mut parts = parts.into_iter();
        parts.find_map(|(part, few)| few.map(|few| format!("{part}, {few}")))
    }
}

impl Display for Summary {
    fn fmt(&self, out: &mut Formatter) -> fmt::Result {
        let program = &self.program;
        write!(out, "{}", self.search)?;
        write!(out, "program, lines: {program}")?;
        write!(out, "program, loads: {}", self.generator)?;
        for (name, counts) in &self.library {
            write!(out, "library, {name}: {counts}")?;
        }
        let all = self.all();
        writeln!(
            out,
            "together: {} lines and calls, {} events, no difference",
            all.calls, all.events
        )
    }
}

#[cfg(test)]
mod tests {
    use super::*;
    use crate::carry_counts::Carried;
    use crate::counts::Together;
    use crate::load_counts::Loads;
    use crate::traffic_counts::TrafficCounts;
    use crate::turn_counts::Turns;

    /// A comparison of which each count is just enough.
    fn enough() -> Summary {
        let mut program = Counts {
            events: 1,
            ..Counts::default()
        };
        program.met[1..].fill(LEAST_MET);
        program.stopped[16..].fill(LEAST_MET);
        program.due = 1;
        program.traffic = TrafficCounts::met_everywhere(LEAST_MET);
        program.turns = Turns::met_everywhere(LEAST_MET);
        let mut together = program.clone();
        together.events = 0;
        together.met[2..=8].fill(0);
        together.traffic = TrafficCounts::default();
        together.turns = Turns::default();
        together.together = Together {
            calls: 1,
            refused: [LEAST_MET; 19],
            behind: LEAST_MET,
            outlasted: LEAST_MET,
        };
        let mut loads = Counts {
            loads: Loads::met_everywhere(LEAST_MET),
            ..Counts::default()
        };
        loads.events = loads.loads.events();
        let carried = Counts {
            carried: Carried::met_everywhere(LEAST_MET),
            ..Counts::default()
        };
        let library = vec![
            ("calls", program.clone()),
            ("loads", loads.clone()),
            ("together", together),
            ("carried", carried),
        ];
        loads.traffic = TrafficCounts::met_everywhere(LEAST_MET);
        loads.turns = Turns::met_everywhere(LEAST_MET);
        program.due = 3;
        program.events = LEAST_EVENTS;
        Summary {
            rounds: 3,
            search: SearchCounts::met_everywhere(LEAST_MET),
            program,
            generator: loads,
            library,
        }
    }

    fn lacks(spoil: fn(&mut Summary), told: &str) {
        let mut summary = enough();
        spoil(&mut summary);
        let missing = summary.missing().unwrap_or_default();
        assert!(missing.contains(told), "{missing}");
    }

    #[test]
    fn too_little_is_told() {
        assert_eq!(enough().missing(), None);
        lacks(|summary| summary.rounds = 4, "due 3 times");
        lacks(|summary| summary.library[0].1.due = 0, "library 0");
        lacks(|summary| summary.library[0].1.met[17] = 1, "check 17");
        lacks(|summary| summary.program.stopped[18] = 0, "ended ticks");
        lacks(|summary| summary.library[0].1.met[13] = 0, "met, library");
        lacks(|summary| summary.library[2].1.met[13] = 0, "met, events");
        lacks(|summary| summary.library.truncate(2), "met, events");
        lacks(|summary| _ = summary.library.pop(), "carried over, packed");
        let spoil = |summary: &mut Summary| summary.library[3].1.carried.lists.apart = 0;
        lacks(spoil, "carried over, both forms, openings apart by 6: 0");
        let spoil = |summary: &mut Summary| summary.library[2].1.together.outlasted = 0;
        lacks(spoil, "0 in which the time");
        lacks(|summary| summary.program.events = 1, "only 2 events");
        let spoil = |summary: &mut Summary| summary.generator.loads.misused = 0;
        lacks(spoil, "loads of the program, 0 calls");
        let spoil = |summary: &mut Summary| summary.library[1].1.loads.unopened = 0;
        lacks(spoil, "loads of the library, 0 without");
        let spoil = |summary: &mut Summary| summary.generator.traffic.reports.held[3] = 0;
        lacks(spoil, "reports of loads, qc held");
        let spoil = |summary: &mut Summary| summary.program.traffic.reports.nothing = 0;
        lacks(spoil, "traffic of the program, 0 reports of nothing");
        let spoil = |summary: &mut Summary| summary.program.traffic.bound_met = 0;
        lacks(spoil, "traffic of the program, 0 views with 2n");
        let spoil = |summary: &mut Summary| summary.library[0].1.traffic.wrapped.waits = 0;
        lacks(spoil, "traffic of the library, 0 calls in which waits");
        let spoil = |summary: &mut Summary| summary.library[0].1.traffic.bound_met = 0;
        lacks(spoil, "traffic of the library, 0 views with 2n");
    }

    #[test]
    fn too_little_of_views_per_leader_is_told() {
        let spoil = |summary: &mut Summary| summary.program.turns.opened[7] = 1;
        lacks(spoil, "views per leader, program, 1 openings with 7");
        let spoil = |summary: &mut Summary| summary.program.turns.due_at_edge = 0;
        lacks(spoil, "program, 0 due with just four delays");
        let spoil = |summary: &mut Summary| summary.generator.turns.lines[1] = 0;
        lacks(spoil, "loads of the program, 0 lines taken without k");
        let spoil = |summary: &mut Summary| summary.library[0].1.turns.unsound = 0;
        lacks(spoil, "views per leader, library, 0 runs unsound for them");
    }

    #[test]
    fn too_little_of_the_search_is_told() {
        let spoil = |summary: &mut Summary| summary.search.words.near = 0;
        lacks(spoil, "search for newlines, words: 0 near one");
        let spoil = |summary: &mut Summary| summary.search.bytes.behind[0] = 0;
        lacks(spoil, "newlines, bytes at hand: 0 without one, the next");
        let spoil = |summary: &mut Summary| summary.search.schedules.pieces[0] = 0;
        lacks(spoil, "newlines, schedules: 0 in pieces of 1");
    }
}
