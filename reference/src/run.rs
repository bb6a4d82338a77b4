//! What an opening takes, the run it leaves, and the answers given.

use crate::plan::Plan;
use crate::set;
use crate::traffic::Sums;

/// What an opening takes.
#[derive(Clone, Copy, PartialEq, Eq, Debug)]
pub struct Setup {
    /// The plan of the run.
    pub plan: Plan,
    /// The faulty processors, "bit p for processor p".
    pub faulty: u64,
    /// "A table holds 64 start clocks; those of faulty processors and from n
    /// on are not read, and tables that differ only from n on are the same
    /// event."
    pub clocks: [u64; 64],
}

/// A run: all that is kept beside the tally and the network.
#[derive(Clone, PartialEq, Eq, Debug)]
pub struct Run {
    /// The plan it was opened with.
    pub plan: Plan,
    /// The faulty processors, "bit p for processor p".
    pub faulty: u64,
    /// The single ticks done since the opening.
    pub time: u64,
    /// Whether the network has settled.
    pub settled: bool,
    /// The time at which it settled, "kept as 0" before.
    pub gst: u64,
    /// The messages held in the network.
    pub held: u64,
    /// The clocks; those of faulty processors and from n on are not read.
    pub clocks: [u64; 64],
    /// The present views; those of faulty processors and from n on are not
    /// read.
    pub views: [u64; 64],
    /// What was sent and delivered since the opening.
    pub sums: Sums,
}

impl Run {
    /// The run before any opening: all zero, and unsound, as n is 0.
    pub fn unopened() -> Self {
        let plan = Plan {
            n: 0,
            delta: 0,
            gamma: 0,
            views: 0,
            k: 0,
        };
        Self {
            plan,
            faulty: 0,
            time: 0,
            settled: false,
            gst: 0,
            held: 0,
            clocks: [0; 64],
            views: [0; 64],
            sums: Sums::default(),
        }
    }

    /// "A processor is correct if its number is below n and not marked" as
    /// faulty: the set of those below 64.
    pub const fn correct(&self) -> u64 {
        set::below(self.plan.n) & !self.faulty
    }

    /// "f is the ones of `faulty`".
    pub(crate) const fn faults(&self) -> u64 {
        set::size(self.faulty)
    }
}

/// The answer to an opening or an event.
#[derive(Clone, Copy, PartialEq, Eq, Debug)]
pub enum Answer {
    /// Accepted whole.
    Done {
        /// The ticks done, 0 for all but ticks.
        ticks: u64,
        /// The messages held after it.
        held: u64,
    },
    /// A run of ticks that "ends before the first refused tick", with one tick
    /// done or more.
    Stopped {
        /// The ticks done, from 1.
        ticks: u64,
        /// The messages held after it.
        held: u64,
        /// The check "that this next tick would meet".
        check: u64,
    },
    /// "A refusal answers its number alone and changes nothing".
    Refused(u64),
}
