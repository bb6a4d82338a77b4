//! Applying one event to a run: checks 9 to 18 and what each event does.

use crate::check;
use crate::effect::{self, Effect};
use crate::form::{Form, Packed};
use crate::message::{Event, Message};
use crate::network;
use crate::plan::Plan;
use crate::run::{Answer, Run};
use crate::set;
use crate::soundness;
use crate::state::State;
use crate::tally::{self, Word};
use crate::tick;

/// Applies an event to any run and any lent words, all checks included.
/// Refused, nothing changes.
pub fn apply(run: &mut Run, event: Event, tally: &mut [u64], network: &mut [u64]) -> Answer {
    apply_in(Packed, run, event, tally, network)
}

/// The same, with a network in that form.
pub fn apply_in(
    form: impl Form,
    run: &mut Run,
    event: Event,
    tally: &mut [u64],
    network: &mut [u64],
) -> Answer {
    if !event.has_form() {
        return Answer::Refused(check::NO_FORM);
    }
    if !soundness::is_sound_in(form, run, tally, network) {
        return Answer::Refused(check::UNSOUND);
    }
    act(form, run, event, tally, network)
}

/// Applies an event to a run that the caller knows to be sound, so that check 9
/// need not be judged.
///
/// Of an unsound run it still refuses by check 9 one whose limits are broken
/// or that holds more messages than fit; what it does with any other is left
/// free, but for that it returns.
pub fn apply_sound(run: &mut Run, event: Event, tally: &mut [u64], network: &mut [u64]) -> Answer {
    if !event.has_form() {
        return Answer::Refused(check::NO_FORM);
    }
    if !soundness::fits(Packed, run, tally, network) {
        return Answer::Refused(check::UNSOUND);
    }
    act(Packed, run, event, tally, network)
}

/// Checks 10 to 18 and the event.
fn act(
    form: impl Form,
    run: &mut Run,
    event: Event,
    tally: &mut [u64],
    network: &mut [u64],
) -> Answer {
    let mut state = State {
        form,
        run,
        tally,
        network,
    };
    let outcome = match event {
        Event::Deliver(message) => deliver(&mut state, message),
        Event::Sign(message) => sign(&mut state, message),
        Event::Show(message) => show(&mut state, message),
        Event::Settle => settle(state.run),
        Event::Tick(ticks) => return tick::run_of_ticks(&mut state, ticks),
    };
    match outcome {
        Ok(()) => Answer::Done {
            ticks: 0,
            held: state.run.held,
        },
        Err(check) => Answer::Refused(check),
    }
}

/// Checks 10 and 11 of a named message.
fn named(plan: Plan, message: Message) -> Result<(), u64> {
    if message.processor() >= plan.n || message.view() >= plan.views {
        return Err(check::OUT_OF_RANGE);
    }
    let of_initial = matches!(message, Message::View(..) | Message::Vc(..));
    if of_initial && !plan.initial(message.view()) {
        return Err(check::NOT_INITIAL);
    }
    Ok(())
}

/// "It leaves the network (the first, of equal ones) and is handled."
fn deliver(state: &mut State<impl Form>, message: Message) -> Result<(), u64> {
    named(state.run.plan, message)?;
    let form = state.form;
    let Some(place) = network::find(form, state.network, state.run.held, message) else {
        return Err(check::NOT_HELD);
    };
    let effect = effect::of(state, message)?;
    state.room(1, effect.sent(state))?;
    let sent = network::remove(form, state.network, &mut state.run.held, place);
    state.run.sums.deliver(message, sent, state.run.time);
    effect.carry_out(state);
    Ok(())
}

/// "faulty p's signature is heard by the leader of w; if that is faulty,
/// nothing changes."
fn sign(state: &mut State<impl Form>, message: Message) -> Result<(), u64> {
    named(state.run.plan, message)?;
    if !set::holds(state.run.faulty, message.processor()) {
        return Err(check::WRONG_PARTY);
    }
    let effect = if state.leader_is_correct(message.view()) {
        effect::of(state, message)?
    } else {
        Effect::Nothing
    };
    state.room(0, effect.sent(state))?;
    effect.carry_out(state);
    Ok(())
}

/// "correct p receives a certificate from the adversary."
fn show(state: &mut State<impl Form>, message: Message) -> Result<(), u64> {
    named(state.run.plan, message)?;
    if set::holds(state.run.faulty, message.processor()) {
        return Err(check::WRONG_PARTY);
    }
    if !exists(state, message) {
        return Err(check::NO_CERTIFICATE);
    }
    let effect = effect::of(state, message)?;
    state.room(0, effect.sent(state))?;
    effect.carry_out(state);
    Ok(())
}

/// "It exists, for a correct leader of w, if formed; for a faulty one, if f
/// plus the correct processors that entered w come to t+1 (vc) or n−t (qc)."
fn exists(state: &State<impl Form>, certificate: Message) -> bool {
    let plan = state.run.plan;
    let view = certificate.view();
    let (mark, signers) = if let Message::Vc(..) = certificate {
        (tally::VIEW_FORMED, plan.view_signers())
    } else {
        (tally::QUORUM_FORMED, plan.quorum_signers())
    };
    if state.leader_is_correct(view) {
        state.tallied(view, Word::Marks) & mark != 0
    } else {
        state.run.faults() + set::size(state.tallied(view, Word::Entered)) >= signers
    }
}

/// "from now on the network keeps `delta`."
fn settle(run: &mut Run) -> Result<(), u64> {
    if run.settled {
        return Err(check::SETTLED_BEFORE);
    }
    run.settled = true;
    run.gst = run.time;
    Ok(())
}
