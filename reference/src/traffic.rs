//! The traffic of a run: "messages sent and delivered by kind, those held, and
//! the sum of waits (delivery less sending time)". "Sent means posted": a
//! message to a correct processor, put into the network.

use crate::check;
use crate::form::Packed;
use crate::message::Message;
use crate::network;
use crate::print;
use crate::run::Run;
use crate::soundness;

/// Numbers of messages by kind: "1 view, 2 vote, 3 view certificate, 4 quorum
/// certificate".
pub type ByKind = [u64; 4];

/// The sums of a run, of its own posting and delivering since the opening. "In
/// a run handed in ... the sums go unchecked and wrap at 2^64."
#[derive(Clone, Copy, PartialEq, Eq, Default, Debug)]
pub struct Sums {
    /// The messages posted.
    pub sent: ByKind,
    /// The messages delivered; what faulty processors sign and show is neither
    /// posted nor delivered.
    pub delivered: ByKind,
    /// The sum of the delivered ones' waits.
    pub waits: u64,
}

/// The report of a run.
#[derive(Clone, Copy, PartialEq, Eq, Debug)]
pub struct Traffic {
    /// The run's sums.
    pub sums: Sums,
    /// The messages held, as the network shows them.
    pub held: ByKind,
}

impl Sums {
    /// Takes in a message that is posted.
    pub(crate) const fn send(&mut self, message: Message) {
        count(&mut self.sent, message.kind());
    }

    /// Takes in a message that is delivered now, and was sent then.
    pub(crate) const fn deliver(&mut self, message: Message, sent: u64, now: u64) {
        count(&mut self.delivered, message.kind());
        self.waits = self.waits.wrapping_add(now.wrapping_sub(sent));
    }
}

/// One message more of a kind from 1 to 4.
const fn count(numbers: &mut ByKind, kind: u64) {
    let number = &mut numbers[kind as usize - 1];
    *number = number.wrapping_add(1);
}

/// The report of any run with any lent words; check 9 refuses an unsound one,
/// and does not look at the sums.
pub fn traffic(run: &Run, tally: &[u64], network: &[u64]) -> Result<Traffic, u64> {
    if !soundness::is_sound(run, tally, network) {
        return Err(check::UNSOUND);
    }
    Ok(of_sound(run, network))
}

/// The report of a sound run.
pub(crate) fn of_sound(run: &Run, network: &[u64]) -> Traffic {
    let mut held = [0; 4];
    for stored in network::messages(Packed, network, run.held) {
        count(&mut held, stored.kind);
    }
    Traffic {
        sums: run.sums,
        held,
    }
}

/// Prints a report: messages sent, delivered and held of each kind and of all
/// together, and the sum of waits "beside the number delivered".
pub(crate) fn print(out: &mut Vec<u8>, Traffic { sums, held }: &Traffic) {
    let Sums {
        sent,
        delivered,
        waits,
    } = sums;
    let words: [&[u8]; 4] = [
        b"traffic view",
        b"traffic vote",
        b"traffic vc",
        b"traffic qc",
    ];
    for (place, word) in words.into_iter().enumerate() {
        print::line(out, word, &[sent[place], delivered[place], held[place]]);
    }
    let all = [sent, delivered, held].map(total);
    print::line(out, b"traffic all", &all);
    print::line(out, b"waits", &[*waits, all[1]]);
}

/// The messages of all kinds.
fn total(numbers: &ByKind) -> u64 {
    numbers
        .iter()
        .fold(0, |sum: u64, &number| sum.wrapping_add(number))
}
