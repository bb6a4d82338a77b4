//! What a message or certificate does to the one who gets it: rules 2 to 5.
//! An effect is found first and carried out once no check refuses it.

use crate::check;
use crate::form::Form;
use crate::message::Message;
use crate::processor;
use crate::set;
use crate::state::State;
use crate::tally::{self, Word};

/// What handling a message comes to.
#[derive(Clone, Copy)]
pub(crate) enum Effect {
    /// Nothing changes.
    Nothing,
    /// A processor enters a view.
    Enter {
        /// The processor.
        processor: u64,
        /// The view.
        view: u64,
    },
    /// A correct leader adds the signer of a view message or vote.
    Hear {
        /// The message heard.
        message: Message,
        /// Whether it forms the certificate.
        forms: bool,
    },
}

/// The effect of a message on its receiver, or check 17 for a certificate that
/// would bring a clock to the limit.
pub(crate) fn of(state: &State<impl Form>, message: Message) -> Result<Effect, u64> {
    let entered = match message {
        Message::View(..) | Message::Vote(..) => return Ok(hearing(state, message)),
        Message::Vc(view, to) => processor::entered_by_view(state.run.views[to as usize], view),
        Message::Qc(view, to) => processor::entered_by_quorum(state.run.views[to as usize], view),
    };
    match entered {
        None => Ok(Effect::Nothing),
        Some(view) if view >= state.run.plan.views => Err(check::LAST_CLOCK),
        Some(view) => Ok(Effect::Enter {
            processor: message.processor(),
            view,
        }),
    }
}

/// Rule 4: "A correct leader that hears a view message for w adds the signer.
/// With t+1 signers or more, no such certificate formed yet and its own view
/// at most w, it forms the view certificate." Rule 5: "Likewise for votes with
/// n−t signers or more, whatever its own view, it forms the quorum
/// certificate."
fn hearing(state: &State<impl Form>, message: Message) -> Effect {
    let view = message.view();
    let plan = state.run.plan;
    let signers = |which| set::size(state.tallied(view, which) | set::only(message.processor()));
    let unformed = |mark| state.tallied(view, Word::Marks) & mark == 0;
    let forms = if let Message::View(..) = message {
        let own = state.run.views[plan.lead(view) as usize];
        signers(Word::ViewHeard) >= plan.view_signers()
            && unformed(tally::VIEW_FORMED)
            && own <= view
    } else {
        signers(Word::VoteHeard) >= plan.quorum_signers() && unformed(tally::QUORUM_FORMED)
    };
    Effect::Hear { message, forms }
}

impl Effect {
    /// How many messages it puts into the network.
    pub(crate) fn sent(self, state: &State<impl Form>) -> u64 {
        match self {
            Self::Nothing | Self::Hear { forms: false, .. } => 0,
            Self::Enter { view, .. } => state.sent_on_entering(view),
            Self::Hear { forms: true, .. } => set::size(state.run.correct()),
        }
    }

    /// Carries it out.
    pub(crate) fn carry_out(self, state: &mut State<impl Form>) {
        match self {
            Self::Nothing => {}
            Self::Enter { processor, view } => state.enter(processor, view),
            Self::Hear { message, forms } => hear(state, message, forms),
        }
    }
}

/// Adds the signer and, if so decided, forms the certificate.
fn hear(state: &mut State<impl Form>, message: Message, forms: bool) {
    let view = message.view();
    let signer = set::only(message.processor());
    if let Message::View(..) = message {
        tally::add(state.tally, view, Word::ViewHeard, signer);
        if forms {
            tally::add(state.tally, view, Word::Marks, tally::VIEW_FORMED);
            state.send_to_correct(|to| Message::Vc(view, to));
        }
    } else {
        tally::add(state.tally, view, Word::VoteHeard, signer);
        if forms {
            tally::add(state.tally, view, Word::Marks, tally::QUORUM_FORMED);
            state.send_to_correct(|to| Message::Qc(view, to));
        }
    }
}
