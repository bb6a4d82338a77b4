//! Setups and runs, opening and applying.

use crate::events::Event;
use crate::raw;

/// The protocol's parameters.
#[derive(Clone, Copy, Debug, PartialEq, Eq, Hash)]
pub struct Plan {
    /// The processors, 4 to 64.
    pub n: u64,
    /// The delay Δ, 1 to 1,000 ticks.
    pub delta: u64,
    /// The slot Γ, 2Δ to 10,000 ticks; for two views per leader at least 4Δ.
    pub gamma: u64,
    /// The view limit V, 3 to 6,000 and a multiple of the views per leader.
    pub views: u64,
    /// The views per leader k, 2 to 8: a start clock is below kΓ, and every k-th view is initial. The line of a setup that does not say
    /// it has [`Plan::VIEWS_PER_LEADER`].
    pub k: u64,
}

impl Plan {
    /// The views per leader of a line that does not say them.
    pub const VIEWS_PER_LEADER: u64 = 3;

    /// Its words, which those of a setup and of a run begin with: n, Δ, Γ, V, k.
    pub fn words(&self) -> [u64; raw::PLAN_WORDS] {
        [self.n, self.delta, self.gamma, self.views, self.k]
    }
}

/// What a run is opened with.
#[derive(Clone, Debug, PartialEq, Eq, Hash)]
pub struct Setup {
    /// The protocol's parameters.
    pub plan: Plan,
    /// The faulty processors, bit p for processor p.
    pub faulty: u64,
    /// The start clocks; those of faulty processors and from n on are not read.
    pub clocks: [u64; raw::TABLE],
}

impl Setup {
    /// A setup without faulty processors whose clocks start at 0.
    pub fn new(plan: Plan) -> Setup {
        Setup {
            plan,
            faulty: 0,
            clocks: [0; raw::TABLE],
        }
    }

    /// Its words: n, Δ, Γ, V, k, the faulty set, 64 clocks.
    pub fn words(&self) -> [u64; raw::SETUP_WORDS] {
        let mut words = [0; raw::SETUP_WORDS];
        words[..raw::PLAN_WORDS].copy_from_slice(&self.plan.words());
        words[raw::SETUP_FAULTY] = self.faulty;
        words[raw::SETUP_CLOCKS..].copy_from_slice(&self.clocks);
        words
    }

    /// The setup of such words.
    pub fn from_words(words: &[u64; raw::SETUP_WORDS]) -> Setup {
        let mut clocks = [0; raw::TABLE];
        clocks.copy_from_slice(&words[raw::SETUP_CLOCKS..]);
        Setup {
            plan: plan_in(words),
            faulty: words[raw::SETUP_FAULTY],
            clocks,
        }
    }
}

/// The plan that the words of a setup and of a run begin with.
fn plan_in(words: &[u64]) -> Plan {
    Plan {
        n: words[0],
        delta: words[1],
        gamma: words[2],
        views: words[3],
        k: words[4],
    }
}

/// The execution so far, without the lent buffers, as the archive's 147 words.
#[derive(Clone, Debug, PartialEq, Eq, Hash)]
pub struct Run([u64; raw::RUN_WORDS]);

impl Run {
    /// No run: every word is 0, and every event that has a form is refused by check 9.
    pub fn unopened() -> Run {
        Run([0; raw::RUN_WORDS])
    }

    /// The run of such words, sound or not.
    pub fn from_words(words: [u64; raw::RUN_WORDS]) -> Run {
        Run(words)
    }

    /// Its words.
    pub fn words(&self) -> &[u64; raw::RUN_WORDS] {
        &self.0
    }

    /// Its words, to be altered at will: [`apply`] judges them anew.
    pub fn words_mut(&mut self) -> &mut [u64; raw::RUN_WORDS] {
        &mut self.0
    }

    /// The protocol's parameters.
    pub fn plan(&self) -> Plan {
        plan_in(&self.0)
    }

    /// The processors.
    pub fn n(&self) -> u64 {
        self.plan().n
    }

    /// The faulty processors, bit p for processor p.
    pub fn faulty(&self) -> u64 {
        self.0[raw::RUN_FAULTY]
    }

    /// The ticks since the opening.
    pub fn time(&self) -> u64 {
        self.0[raw::RUN_TIME]
    }

    /// Whether the network has settled.
    pub fn settled(&self) -> bool {
        self.0[raw::RUN_SETTLED] == 1
    }

    /// When it settled; 0 before.
    pub fn gst(&self) -> u64 {
        self.0[raw::RUN_GST]
    }

    /// The messages in the network.
    pub fn held(&self) -> u64 {
        self.0[raw::RUN_HELD]
    }

    /// The clock of a processor; 0 from 64 on.
    pub fn clock(&self, processor: usize) -> u64 {
        self.in_table(raw::RUN_CLOCKS, processor)
    }

    /// The view of a processor; 0 from 64 on.
    pub fn view(&self, processor: usize) -> u64 {
        self.in_table(raw::RUN_VIEWS, processor)
    }

    /// What the table from a place on has for a processor; 0 from 64 on.
    fn in_table(&self, from: usize, processor: usize) -> u64 {
        let table = &self.0[from..from + raw::TABLE];
        table.get(processor).copied().unwrap_or(0)
    }
}

/// The answer to an opening or an event.
#[derive(Clone, Copy, Debug, PartialEq, Eq, Hash)]
pub enum Answer {
    /// It was done.
    Done {
        /// The ticks done, 0 for anything but ticks.
        ticks: u64,
        /// The messages in the network now.
        held: u64,
    },
    /// Some of the ticks were done.
    Stopped {
        /// How many.
        ticks: u64,
        /// The messages in the network now.
        held: u64,
        /// The check that the next tick would meet.
        check: u64,
    },
    /// The first check whose sentence holds; nothing has changed.
    Refused(u64),
}

impl Answer {
    /// The answer to an event that [`raw::apply_all`] has put in the place of its words: form, check, ticks done, messages held.
    pub fn from_words([_, check, ticks, held]: [u64; raw::EVENT_WORDS]) -> Answer {
        match (check, ticks) {
            (0, _) => Answer::Done { ticks, held },
            (_, 0) => Answer::Refused(check),
            _ => Answer::Stopped { ticks, held, check },
        }
    }
}

/// Opens a setup in place of the run at hand, which is not judged: done, or refused by 2 to 8.
pub fn open(setup: &Setup, run: &mut Run, tally: &mut [u64], network: &mut [u64]) -> Answer {
    match raw::open(&setup.words(), &mut run.0, tally, network) {
        0 => Answer::Done {
            ticks: 0,
            held: run.held(),
        },
        check => Answer::Refused(check),
    }
}

/// Applies an event to a run and its buffers, whatever they hold. Ticks done are the time gained.
pub fn apply(run: &mut Run, event: Event, tally: &mut [u64], network: &mut [u64]) -> Answer {
    let before = run.time();
    let [form, kind, view, processor] = event.numbers();
    let check = raw::apply(&mut run.0, form, kind, view, processor, tally, network);
    Answer::from_words([form, check, run.time() - before, run.held()])
}

/// Applies events one after the other, whatever the run and its buffers hold, and answers as [`apply`] does for each. Whether the run
/// is sound is looked at in full once for all of them, which costs less than one by one; [`raw::apply_all`] answers in the words lent.
pub fn apply_all(
    run: &mut Run,
    events: &[Event],
    tally: &mut [u64],
    network: &mut [u64],
) -> Vec<Answer> {
    let mut words: Vec<_> = events.iter().map(|event| event.numbers()).collect();
    match raw::apply_all(&mut run.0, tally, network, words.as_flattened_mut()) {
        0 => words.into_iter().map(Answer::from_words).collect(),
        // The settled word is of no run: every event is refused, and which check comes first is each one's own.
        _ => {
            let alone = |&event| apply(run, event, tally, network);
            events.iter().map(alone).collect()
        }
    }
}
