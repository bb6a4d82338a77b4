//! Carrying a held run over from one form of network to the other: "Held runs
//! are carried over in order, and turning them back gives the same four
//! numbers."

use crate::check;
use crate::form::{Form, Packed, Wide};
use crate::limits;
use crate::network;
use crate::run::Run;
use crate::soundness;

/// Carries a run from a network of four words a message over to a target of
/// two. "A target that check 6 refuses or that is too short answers 6; an
/// unsound run ... 9; nothing is then written."
///
/// Written, the target holds the same messages in the same order, and zeros
/// behind them. The run and its tally are as good with it as they were.
pub fn pack(run: &Run, tally: &[u64], network: &[u64], target: &mut [u64]) -> Result<(), u64> {
    carry((Wide, network), (Packed, target), run, tally)
}

/// Carries a run from a network of two words a message over to a target of
/// four.
pub fn unpack(run: &Run, tally: &[u64], network: &[u64], target: &mut [u64]) -> Result<(), u64> {
    carry((Packed, network), (Wide, target), run, tally)
}

/// Whether a target of so many words can hold what a run says that it holds,
/// whatever the run is: check 6 does not refuse it in its own form, with the
/// run's n, and it is not "too short".
pub fn target_fits<F: Form>(form: F, run: &Run, words: usize) -> Result<(), u64> {
    let fit = words / F::WORDS;
    if !limits::network(form, run.plan.n, words) || run.held > fit as u64 {
        return Err(check::BUFFERS);
    }
    Ok(())
}

/// From one form to another.
fn carry(
    (from, network): (impl Form, &[u64]),
    (to, target): (impl Form, &mut [u64]),
    run: &Run,
    tally: &[u64],
) -> Result<(), u64> {
    target_fits(to, run, target.len())?;
    if !soundness::is_sound_in(from, run, tally, network) {
        return Err(check::UNSOUND);
    }
    target.fill(0);
    let mut held = 0;
    for stored in network::messages(from, network, run.held) {
        let message = network::message(stored);
        network::push(to, target, &mut held, message, stored.sent);
    }
    Ok(())
}
