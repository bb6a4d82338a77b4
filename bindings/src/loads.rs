//! Loads: schedules out of a seed number.

use crate::raw;
use crate::runs::{Run, Setup};

/// What a load is made with, and where it stands.
#[derive(Clone, Copy, Debug, PartialEq, Eq, Hash)]
pub struct Load {
    /// How many steps it has.
    pub steps: u64,
    /// The step, from 0, before which it settles; none where that is not below the steps.
    pub settle: u64,
    /// The seed, and then the one that the next draw starts from.
    pub seed: u64,
    /// The next step.
    pub step: u64,
}

impl Load {
    /// A load of so many steps that has not begun.
    pub fn new(steps: u64, settle: u64, seed: u64) -> Load {
        Load {
            steps,
            settle,
            seed,
            step: 0,
        }
    }

    /// Has a call alter its words, and takes in what it wrote there.
    fn lent(&mut self, call: impl FnOnce(&mut [u64]) -> u64) -> Generated {
        let mut words = [self.steps, self.settle, self.seed, self.step, 0, 0];
        match call(&mut words) {
            0 => {
                let [_, _, seed, step, bytes, full] = words;
                (self.seed, self.step) = (seed, step);
                let bytes = bytes as usize;
                match full {
                    0 => Generated::Ended { bytes },
                    _ => Generated::Full { bytes },
                }
            }
            check => Generated::Refused(check),
        }
    }
}

/// What came of a call for a load.
#[derive(Clone, Copy, Debug, PartialEq, Eq, Hash)]
pub enum Generated {
    /// The load has ended: its steps are done, or a check refuses the next event.
    Ended {
        /// The bytes of the lines written.
        bytes: usize,
    },
    /// The bytes left are too few for the next line: [`generate_more`] goes on, once the opening's line is written,
    /// and finds out whether a check refuses that line's event.
    Full {
        /// The bytes of the lines written.
        bytes: usize,
    },
    /// The check; nothing has changed.
    Refused(u64),
}

/// Opens a setup in place of the run at hand, moves the run by events that the load's seed chooses, and writes the line of the setup
/// and of each event, whole lines only: refused by 2 to 8, or written as far as the bytes go. The load begins with step 0. Where the
/// bytes are too few for the first line, the run is not opened.
pub fn generate(
    setup: &Setup,
    load: &mut Load,
    run: &mut Run,
    tally: &mut [u64],
    network: &mut [u64],
    out: &mut [u8],
) -> Generated {
    load.lent(|load| raw::generate(&setup.words(), run.words_mut(), tally, network, load, out))
}

/// Goes on with a load from its next step: refused by 9 where the run is unsound but for its time, or written as far as the bytes go.
pub fn generate_more(
    load: &mut Load,
    run: &mut Run,
    tally: &mut [u64],
    network: &mut [u64],
    out: &mut [u8],
) -> Generated {
    load.lent(|load| raw::generate_more(run.words_mut(), tally, network, load, out))
}
