//! What was met of runs carried over from one form to the other: into which
//! targets, and what refused them.

use super::add;
use crate::calls::State;
use crate::clauses::{Clause, CLAUSES};
use crate::stored::Width;
use crate::words::HELD;

/// Why a target is refused.
#[derive(Clone, Copy, PartialEq, Eq, Debug)]
pub enum Target {
    /// Fewer words than check 6 wants.
    Short = 0,
    /// More than it allows.
    Long = 1,
    /// Fewer than the messages held take.
    Full = 2,
}

/// What each of them is called.
const TARGETS: [&str; 3] = ["too short for check 6", "too long", "too short for all"];

/// Why a run is not carried over.
#[derive(Clone, PartialEq, Eq, Debug)]
pub enum Refusal {
    /// The run has too few words.
    FewRunWords,
    /// The target, for these reasons, and whether the run is unsound besides.
    Target(Vec<Target>, bool),
    /// These clauses of check 9.
    Unsound(Vec<Clause>),
}

impl Refusal {
    /// The check that refuses it.
    pub const fn check(&self) -> u64 {
        match self {
            Self::FewRunWords => 1,
            Self::Target(..) => 6,
            Self::Unsound(_) => 9,
        }
    }
}

/// Counts of runs carried over from one form to the other.
#[derive(Clone, Default, Debug)]
pub struct Way {
    /// The calls.
    pub calls: u64,
    /// Those accepted, by what the run and the target were: [`DONE`].
    pub done: [u64; 6],
    /// Those accepted with such a message held, by [`HOLDING`].
    pub holding: [u64; 6],
    /// Those carried back to the words from which they came over.
    pub back: u64,
    /// Those refused for a run of too few words.
    pub few_run_words: u64,
    /// Those refused for the target alone, by [`Target`].
    pub refused: [u64; 3],
    /// Those of them at an edge, by [`EDGES`].
    pub edges: [u64; 4],
    /// Those refused for the target though the run is unsound too.
    pub behind: u64,
    /// Those refused for one clause of check 9 alone, by [`Clause`].
    pub clauses: [u64; 17],
    /// Of those refused for a kind alone, how many had kinds 5 to 8 somewhere.
    pub kinds: [u64; 4],
}

/// What a run that is carried over may be, and its target.
const DONE: [&str; 6] = [
    "of a run that holds nothing",
    "of one that holds something",
    "filling the target",
    "into the shortest target",
    "into one with a word that no message can use",
    "into the longest target",
];

/// What it may hold.
const HOLDING: [&str; 6] = [
    "holding a view message",
    "holding a vote",
    "holding a view certificate",
    "holding a quorum certificate",
    "holding one for view 4,096 or above",
    "holding one of or for processor 63",
];

/// Where a target alone may be just so that it is refused.
const EDGES: [&str; 4] = [
    "refused for a target of no words",
    "refused for one word too few for check 6",
    "refused for one word too few for all",
    "refused for one word too many",
];

impl Way {
    /// Takes in a state that was carried over.
    pub fn carry(&mut self, from: Width, state: &State) {
        let to = from.other();
        let (n, held) = (state.run.front()[0], state.run.front()[HELD]);
        let words = state.target.front().len();
        let met = [
            held == 0,
            held > 0,
            held == (words / to.words()) as u64,
            words as u64 == to.least() * n,
            !words.is_multiple_of(to.words()),
            words == 524_288,
        ];
        count(&mut self.done, &met);
        let mut met = [false; 6];
        for [kind, view, processor, _] in from.messages(state.network.front(), held) {
            met[kind as usize - 1] = true;
            met[4] |= view >= 4_096;
            met[5] |= processor == 63;
        }
        count(&mut self.holding, &met);
    }

    /// Takes in one that was refused.
    pub fn refuse(&mut self, refusal: &Refusal, from: Width, state: &State) {
        match refusal {
            Refusal::FewRunWords => self.few_run_words += 1,
            Refusal::Target(_, true) => self.behind += 1,
            Refusal::Target(targets, false) => {
                if let [target] = targets[..] {
                    self.refused[target as usize] += 1;
                }
                self.edges(from.other(), state);
            }
            Refusal::Unsound(clauses) => {
                let [clause] = clauses[..] else { return };
                self.clauses[clause as usize] += 1;
                if let Clause::Kind = clause {
                    self.kinds(from, state);
                }
            }
        }
    }

    /// Takes in a target that is refused, of a sound run.
    fn edges(&mut self, to: Width, state: &State) {
        let (n, held) = (state.run.front()[0], state.run.front()[HELD]);
        let words = state.target.front().len() as u64;
        let (least, exact) = (to.least() * n, held * to.words() as u64);
        let met = [
            words == 0,
            words + 1 == least,
            words + 1 == exact && words >= least,
            words == 524_289,
        ];
        count(&mut self.edges, &met);
    }

    /// Takes in which of the kinds 5 to 8 stand in a network.
    fn kinds(&mut self, from: Width, state: &State) {
        let held = state.run.front()[HELD];
        let mut met = [false; 4];
        for [kind, ..] in from.messages(state.network.front(), held) {
            if let 5..=8 = kind {
                met[kind as usize - 5] = true;
            }
        }
        count(&mut self.kinds, &met);
    }

    /// All that is counted, each with its name.
    pub(super) fn named(&self) -> impl Iterator<Item = (u64, String)> + '_ {
        let single = [
            (self.calls, "calls"),
            (self.back, "carried back"),
            (self.few_run_words, "refused for too few run words"),
            (self.behind, "refused for a target beside an unsound run"),
        ];
        let lists: [(&[u64], &[&str]); 3] = [
            (&self.done, &DONE),
            (&self.holding, &HOLDING),
            (&self.edges, &EDGES),
        ];
        let listed = lists.into_iter().flat_map(|(times, names)| {
            let pairs = times.iter().zip(names);
            pairs.map(|(&times, &name)| (times, name.to_owned()))
        });
        let target = |name: &&str| format!("refused for a target {name}");
        let clause = |name: &&str| format!("refused for {name}");
        let kind = |kind: u64| format!("refused for kind {kind}");
        single
            .into_iter()
            .map(|(times, name)| (times, name.to_owned()))
            .chain(listed)
            .chain(self.refused.into_iter().zip(TARGETS.iter().map(target)))
            .chain(self.clauses.into_iter().zip(CLAUSES.iter().map(clause)))
            .chain(self.kinds.into_iter().zip((5..=8).map(kind)))
    }

    pub(super) fn add(&mut self, other: &Self) {
        self.calls += other.calls;
        self.back += other.back;
        self.few_run_words += other.few_run_words;
        self.behind += other.behind;
        add(&mut self.done, &other.done);
        add(&mut self.holding, &other.holding);
        add(&mut self.refused, &other.refused);
        add(&mut self.edges, &other.edges);
        add(&mut self.clauses, &other.clauses);
        add(&mut self.kinds, &other.kinds);
    }
}

/// Counts what was met.
fn count(times: &mut [u64], met: &[bool]) {
    for (times, &met) in times.iter_mut().zip(met) {
        *times += u64::from(met);
    }
}
