//! A run with its tally and network, while one event or opening alters them.

use crate::check;
use crate::form::Form;
use crate::message::Message;
use crate::network;
use crate::run::Run;
use crate::set;
use crate::tally::{self, Word};

/// What an event may alter. Checks 2 to 6 hold of it, and no more messages are
/// held than fit.
pub(crate) struct State<'a, F> {
    pub(crate) form: F,
    pub(crate) run: &'a mut Run,
    pub(crate) tally: &'a mut [u64],
    pub(crate) network: &'a mut [u64],
}

impl<F: Form> State<'_, F> {
    /// One word of a view's tally.
    pub(crate) fn tallied(&self, view: u64, which: Word) -> u64 {
        tally::word(self.tally, view, which)
    }

    /// Whether the leader of a view is correct.
    pub(crate) fn leader_is_correct(&self, view: u64) -> bool {
        !set::holds(self.run.faulty, self.run.plan.lead(view))
    }

    /// How many messages entering a view puts into the network: the vote, and
    /// for an initial view the view message; none to a faulty leader.
    pub(crate) fn sent_on_entering(&self, view: u64) -> u64 {
        if self.leader_is_correct(view) {
            1 + u64::from(self.run.plan.initial(view))
        } else {
            0
        }
    }

    /// Check 18: whether the network still holds all after an event that takes
    /// `removed` messages out and sends `sent`.
    pub(crate) fn room(&self, removed: u64, sent: u64) -> Result<(), u64> {
        if self.run.held - removed + sent > network::capacity(self.form, self.network) {
            return Err(check::NETWORK_FULL);
        }
        Ok(())
    }

    /// "Entering view w: the view becomes w, a clock below its clock time
    /// becomes that, and the processor sends its vote for w to the leader of
    /// w; for an initial w its view message goes before the vote."
    pub(crate) fn enter(&mut self, processor: u64, view: u64) {
        let place = processor as usize;
        let plan = self.run.plan;
        self.run.views[place] = view;
        self.run.clocks[place] = self.run.clocks[place].max(plan.clock_time(view));
        tally::add(self.tally, view, Word::Entered, set::only(processor));
        if self.leader_is_correct(view) {
            if plan.initial(view) {
                self.send(Message::View(view, processor));
            }
            self.send(Message::Vote(view, processor));
        }
    }

    /// "A formed certificate is sent to every correct processor, the leader
    /// included." "In one event messages go out by rising processor number."
    pub(crate) fn send_to_correct(&mut self, certificate: impl Fn(u64) -> Message) {
        for processor in set::members(self.run.correct()) {
            self.send(certificate(processor));
        }
    }

    /// Puts a message into the network, sent now.
    fn send(&mut self, message: Message) {
        let time = self.run.time;
        let held = &mut self.run.held;
        network::push(self.form, self.network, held, message, time);
        self.run.sums.send(message);
    }
}
