//! How much the processors of a run have sent, and how much of it has arrived.

use crate::events::Kind;
use crate::raw;
use crate::runs::Run;

/// Messages by kind.
#[derive(Clone, Copy, Debug, Default, PartialEq, Eq, Hash)]
pub struct Counts {
    /// View messages.
    pub view: u64,
    /// Votes.
    pub vote: u64,
    /// View certificates.
    pub vc: u64,
    /// Quorum certificates.
    pub qc: u64,
}

impl Counts {
    /// Those of four words, by kind from 1 to 4.
    pub fn from_words([view, vote, vc, qc]: [u64; raw::KINDS]) -> Counts {
        Counts { view, vote, vc, qc }
    }

    /// Its four words.
    pub fn words(&self) -> [u64; raw::KINDS] {
        [self.view, self.vote, self.vc, self.qc]
    }

    /// Those of one kind.
    pub fn of(&self, kind: Kind) -> u64 {
        match kind {
            Kind::View => self.view,
            Kind::Vote => self.vote,
            Kind::Vc => self.vc,
            Kind::Qc => self.qc,
        }
    }

    /// Those of all kinds, wrapping at 2^64.
    pub fn all(&self) -> u64 {
        self.words().into_iter().fold(0, u64::wrapping_add)
    }
}

/// The report of a run. Where the run was opened here and moved by events only, sent is delivered plus held, kind by kind, and no sum
/// has wrapped; in a run of any words the sums may be anything, and wrap at 2^64.
#[derive(Clone, Copy, Debug, Default, PartialEq, Eq, Hash)]
pub struct Traffic {
    /// The messages posted since the opening: those to correct processors, the only ones that go into the network.
    pub sent: Counts,
    /// The messages delivered since the opening.
    pub delivered: Counts,
    /// The messages in the network now, counted there.
    pub held: Counts,
    /// The sum of the times that the delivered ones were in flight: the time of delivery less the time of sending.
    pub waits: u64,
}

impl Traffic {
    /// The report of such words.
    pub fn from_words(words: &[u64; raw::TRAFFIC_WORDS]) -> Traffic {
        Traffic {
            sent: counts_in(words, raw::TRAFFIC_SENT),
            delivered: counts_in(words, raw::TRAFFIC_DELIVERED),
            held: counts_in(words, raw::TRAFFIC_HELD),
            waits: words[raw::TRAFFIC_WAITS],
        }
    }
}

/// The four words from a place on.
fn counts_in(words: &[u64], from: usize) -> Counts {
    let mut four = [0; raw::KINDS];
    four.copy_from_slice(&words[from..from + raw::KINDS]);
    Counts::from_words(four)
}

impl Run {
    /// The messages posted since the opening, as the run's own words say.
    pub fn sent(&self) -> Counts {
        counts_in(self.words(), raw::RUN_SENT)
    }

    /// The messages delivered since the opening.
    pub fn delivered(&self) -> Counts {
        counts_in(self.words(), raw::RUN_DELIVERED)
    }

    /// The sum of the times that these were in flight.
    pub fn waits(&self) -> u64 {
        self.words()[raw::RUN_WAITS]
    }

    /// Reports the traffic of the run in its buffers, whatever they hold; or names check 9 where the run is unsound. Nothing changes.
    pub fn traffic(&self, tally: &[u64], network: &[u64]) -> Result<Traffic, u64> {
        let mut report = [0; raw::TRAFFIC_WORDS];
        match raw::traffic(self.words(), tally, network, &mut report) {
            0 => Ok(Traffic::from_words(&report)),
            check => Err(check),
        }
    }
}
