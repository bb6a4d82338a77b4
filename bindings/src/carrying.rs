//! Held runs carried over from networks of four words a message, and back.

use crate::raw;
use crate::runs::Run;

/// Carries a run over from a network of four words a message to a target of two, whatever both hold: the target then has the same
/// messages in the same order and zeros behind them, and takes the network's place. Else it names the check and nothing has changed: 6
/// where the target has fewer than 4n words, more than 524,288, or too few for the messages held; 9 where the run is unsound.
pub fn pack(run: &Run, tally: &[u64], network: &[u64], target: &mut [u64]) -> Result<(), u64> {
    carried(raw::pack(run.words(), tally, network, target))
}

/// Carries a run over from a network of two words a message to a target of four, as [`pack`] does the other way; the target needs 8n
/// words.
pub fn unpack(run: &Run, tally: &[u64], network: &[u64], target: &mut [u64]) -> Result<(), u64> {
    carried(raw::unpack(run.words(), tally, network, target))
}

/// What a call answered.
fn carried(check: u64) -> Result<(), u64> {
    match check {
        0 => Ok(()),
        check => Err(check),
    }
}
