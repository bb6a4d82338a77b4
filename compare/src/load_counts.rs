//! What loads met: how each of their lines came about, and what ended them.

use crate::counts::{add_by_check, by_check};
use std::fmt::{self, Display, Formatter};

/// How a line of a load comes about.
#[derive(Clone, Copy, PartialEq, Eq, Debug)]
pub enum Way {
    /// A delivery was drawn.
    Drawn = 0,
    /// A tick was drawn.
    Ticked = 1,
    /// A delivery was drawn, and the network is empty: a tick.
    Idle = 2,
    /// A tick was drawn, and a message is overdue: its delivery.
    Overdue = 3,
    /// The network settles.
    Settled = 4,
}

/// Each way, and what it is called.
const WAYS: [(Way, &str); 5] = [
    (Way::Drawn, "deliveries drawn"),
    (Way::Ticked, "ticks drawn"),
    (Way::Idle, "ticks for an empty network"),
    (Way::Overdue, "deliveries for overdue ticks"),
    (Way::Settled, "settling"),
];

/// The checks that end a load by an event of a way, in a run that was opened.
const ENDED_BY: [(Way, &[usize]); 4] = [
    (Way::Drawn, &[17, 18]),
    (Way::Ticked, &[17, 18]),
    (Way::Idle, &[17]),
    (Way::Overdue, &[17, 18]),
];
/// Those that do so besides in a run handed in: its time may come to its
/// limit, and messages may name a view that is not initial.
const ENDED_BESIDES_BY: [(Way, &[usize]); 5] = [
    (Way::Drawn, &[9, 11]),
    (Way::Ticked, &[9]),
    (Way::Idle, &[9]),
    (Way::Overdue, &[11]),
    (Way::Settled, &[9]),
];

/// What the lines of one way met.
#[derive(Clone, Default, Debug)]
pub struct Met {
    /// Those done and written.
    pub done: u64,
    /// Those that the bytes left were too few for.
    pub full: u64,
    /// Per check, those that it refused.
    pub refused: [u64; 19],
}

/// Counts of loads.
#[derive(Clone, Default, Debug)]
pub struct Loads {
    /// Calls that begin a load, refused ones among them.
    pub begun: u64,
    /// Calls that go on with one, refused ones among them.
    pub gone_on: u64,
    /// Calls of the program with wrong words.
    pub misused: u64,
    /// Per check, the calls to begin one that it refused.
    pub unbegun: [u64; 19],
    /// Per check, the calls to go on with one that it refused.
    pub halted: [u64; 19],
    /// Calls in which the bytes were too few for the opening's line.
    pub unopened: u64,
    /// Calls that did all of the steps.
    pub finished: u64,
    /// What the lines met, by their ways.
    pub ways: [Met; 5],
}

impl Loads {
    /// Whether there were any.
    pub const fn is_empty(&self) -> bool {
        self.begun == 0 && self.gone_on == 0 && self.misused == 0
    }

    /// The events done and written.
    pub fn events(&self) -> u64 {
        self.ways.iter().map(|met| met.done).sum()
    }

    /// The single ticks among them.
    pub const fn ticks(&self) -> u64 {
        self.ways[Way::Ticked as usize].done + self.ways[Way::Idle as usize].done
    }

    /// Adds the counts of another part.
    pub fn add(&mut self, other: &Self) {
        self.begun += other.begun;
        self.gone_on += other.gone_on;
        self.misused += other.misused;
        self.unopened += other.unopened;
        self.finished += other.finished;
        add_by_check(&mut self.unbegun, &other.unbegun);
        add_by_check(&mut self.halted, &other.halted);
        for (met, more) in self.ways.iter_mut().zip(&other.ways) {
            met.done += more.done;
            met.full += more.full;
            add_by_check(&mut met.refused, &more.refused);
        }
    }

    /// What the program met less often: lines of each way, all that ends a
    /// load there, every refused opening, wrong words.
    pub fn program_lacks(&self, least: u64) -> Option<String> {
        if self.misused < least {
            return Some(format!("{} calls with wrong words", self.misused));
        }
        self.lacks(least)
            .or_else(|| self.ends_lack(least, &ENDED_BY))
    }

    /// What the library met less often: as the program, and bytes too few for
    /// each line, and runs handed in that are unsound.
    pub fn library_lacks(&self, least: u64) -> Option<String> {
        if self.unopened < least {
            return Some(format!("{} without room for the opening", self.unopened));
        }
        if let Some(check) = [1, 9].into_iter().find(|&check| self.halted[check] < least) {
            return Some(format!("going on refused by {check}"));
        }
        if let Some((_, name)) = self.named().find(|(met, _)| met.full < least) {
            return Some(format!("{name} without room"));
        }
        self.lacks(least)
            .or_else(|| self.ends_lack(least, &ENDED_BY))
            .or_else(|| self.ends_lack(least, &ENDED_BESIDES_BY))
    }

    /// What either met less often.
    fn lacks(&self, least: u64) -> Option<String> {
        if self.finished < least {
            return Some(format!("{} with all steps done", self.finished));
        }
        if let Some(check) = (1..=8).find(|&check| self.unbegun[check] < least) {
            return Some(format!("openings refused by {check}"));
        }
        let few = self.named().find(|(met, _)| met.done < least)?;
        Some(format!("{} done", few.1))
    }

    /// An end that was met less often.
    fn ends_lack(&self, least: u64, ends: &[(Way, &[usize])]) -> Option<String> {
        ends.iter().find_map(|&(way, checks)| {
            let refused = &self.ways[way as usize].refused;
            let few = checks.iter().find(|&&check| refused[check] < least)?;
            Some(format!("{} ended by {few}", WAYS[way as usize].1))
        })
    }

    /// What the lines met, with the names of their ways.
    fn named(&self) -> impl Iterator<Item = (&Met, &'static str)> {
        WAYS.into_iter()
            .map(|(way, name)| (&self.ways[way as usize], name))
    }
}

impl Display for Loads {
    fn fmt(&self, out: &mut Formatter) -> fmt::Result {
        writeln!(
            out,
            "loads: {} begun, {} gone on with, {} calls with wrong words; {} without room for the \
             opening, {} with all steps done",
            self.begun, self.gone_on, self.misused, self.unopened, self.finished
        )?;
        let (unbegun, halted) = (by_check(&self.unbegun), by_check(&self.halted));
        writeln!(out, "    check: openings refused: {unbegun}")?;
        if !halted.is_empty() {
            writeln!(out, "    check: going on refused: {halted}")?;
        }
        for (met, name) in self.named() {
            let Met {
                done,
                full,
                refused,
            } = met;
            write!(out, "    {name}: {done}")?;
            if *full > 0 {
                write!(out, ", without room: {full}")?;
            }
            if refused.iter().any(|&times| times > 0) {
                write!(out, "; check: loads ended: {}", by_check(refused))?;
            }
            writeln!(out)?;
        }
        Ok(())
    }
}

#[cfg(test)]
mod tests {
    use super::*;

    impl Loads {
        /// Counts of which each is so much.
        pub fn met_everywhere(times: u64) -> Self {
            let met = Met {
                done: times,
                full: times,
                refused: [times; 19],
            };
            Self {
                begun: times,
                gone_on: times,
                misused: times,
                unbegun: [times; 19],
                halted: [times; 19],
                unopened: times,
                finished: times,
                ways: [(); 5].map(|()| met.clone()),
            }
        }
    }

    #[test]
    fn what_is_lacking_is_told() {
        let enough = Loads::met_everywhere(2);
        assert_eq!(enough.program_lacks(2).or(enough.library_lacks(2)), None);
        assert_eq!((enough.events(), enough.ticks()), (10, 4));
        let lacks = |spoil: fn(&mut Loads), program: Option<&str>, library: Option<&str>| {
            let mut loads = enough.clone();
            spoil(&mut loads);
            assert_eq!(loads.program_lacks(2).as_deref(), program);
            assert_eq!(loads.library_lacks(2).as_deref(), library);
        };
        let both = |spoil, told| lacks(spoil, Some(told), Some(told));
        both(|loads| loads.finished = 1, "1 with all steps done");
        both(|loads| loads.unbegun[6] = 0, "openings refused by 6");
        both(|loads| loads.ways[4].done = 0, "settling done");
        let told = "deliveries drawn ended by 17";
        both(|loads| loads.ways[0].refused[17] = 1, told);
        let told = "1 calls with wrong words";
        lacks(|loads| loads.misused = 1, Some(told), None);
        let told = "0 without room for the opening";
        lacks(|loads| loads.unopened = 0, None, Some(told));
        lacks(
            |loads| loads.halted[9] = 0,
            None,
            Some("going on refused by 9"),
        );
        let told = "settling without room";
        lacks(|loads| loads.ways[4].full = 0, None, Some(told));
        let told = "ticks drawn ended by 9";
        lacks(|loads| loads.ways[1].refused[9] = 0, None, Some(told));
        let mut twice = enough.clone();
        twice.add(&enough);
        assert_eq!(twice.library_lacks(4).or(twice.program_lacks(4)), None);
        assert!(twice
            .to_string()
            .contains("settling: 4, without room: 4; check"));
    }
}
