//! Check 9: whether a run handed in is sound.

use crate::form::{Form, Packed, Stored};
use crate::limits;
use crate::network;
use crate::plan::Plan;
use crate::processor;
use crate::run::Run;
use crate::set;

/// Whether checks 2 to 6 hold and no more messages are held than fit: what
/// every event relies on to find its words.
pub(crate) fn fits(form: impl Form, run: &Run, tally: &[u64], network: &[u64]) -> bool {
    limits::all(form, run.plan, run.faulty, tally, network).is_ok()
        && run.held <= network::capacity(form, network)
}

/// Whether check 9 passes the run: "a limit of 2 to 6 broken, a correct clock
/// or the time at or above" `views` times `gamma`, "a correct clock below its
/// view's clock time or not below that of the next initial view, more messages
/// than fit, a held message with kind, view or processor out of range or
/// addressed to a faulty processor, a sending or settling time later than now,
/// or a network word beyond the last message that is not 0" make it unsound,
/// and so does a settling time other than 0 "in an unsettled run".
///
/// The order of sending times and whether a held view message or view
/// certificate names an initial view are no part of it.
pub fn is_sound(run: &Run, tally: &[u64], network: &[u64]) -> bool {
    is_sound_in(Packed, run, tally, network)
}

/// Whether nothing but "the time at or above" `views` times `gamma` can make
/// the run unsound.
pub fn is_sound_but_for_time(run: &Run, tally: &[u64], network: &[u64]) -> bool {
    lasts(Packed, run, tally, network)
}

/// Whether check 9 passes the run with a network in that form.
pub fn is_sound_in(form: impl Form, run: &Run, tally: &[u64], network: &[u64]) -> bool {
    run.time < run.plan.clock_limit() && lasts(form, run, tally, network)
}

/// Check 9 without its clause about the time.
fn lasts(form: impl Form, run: &Run, tally: &[u64], network: &[u64]) -> bool {
    fits(form, run, tally, network)
        && run.gst <= run.time
        && (run.settled || run.gst == 0)
        && processors_are_sound(run)
        && messages_are_sound(form, run, network)
        && network::beyond(form, network, run.held)
            .iter()
            .all(|&word| word == 0)
}

/// Whether every correct clock stands where its view allows.
fn processors_are_sound(run: &Run) -> bool {
    set::members(run.correct()).all(|number| {
        let place = number as usize;
        processor::is_placed(run.plan, run.clocks[place], run.views[place])
    })
}

/// Whether every held message is sound.
fn messages_are_sound(form: impl Form, run: &Run, network: &[u64]) -> bool {
    let correct = run.correct();
    network::messages(form, network, run.held).all(|stored| {
        stored.sent <= run.time
            && receiver(run.plan, stored).is_some_and(|number| set::holds(correct, number))
    })
}

/// Who a held message is addressed to, if its kind, view and processor are in
/// range: the leader of its view for kinds 1 and 2, the processor named for 3
/// and 4.
fn receiver(plan: Plan, stored: Stored) -> Option<u64> {
    let Stored {
        kind,
        view,
        processor,
        ..
    } = stored;
    if view >= plan.views || processor >= plan.n {
        return None;
    }
    match kind {
        1 | 2 => Some(plan.lead(view)),
        3 | 4 => Some(processor),
        _ => None,
    }
}
