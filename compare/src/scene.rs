//! What a schedule's author sees of a run: who is where, what is in flight,
//! what was signed. Everything is read from the run and its lent words.

use crate::stored::{Fields, Width};
use crate::words;
use reference::{Message, Run};

/// A sound run with its lent words.
#[derive(Clone, Copy)]
pub struct Scene<'a> {
    /// The run.
    pub run: &'a Run,
    /// The tally.
    pub tally: &'a [u64],
    /// The network.
    pub network: &'a [u64],
}

/// A word of a view's tally.
#[derive(Clone, Copy)]
pub enum Word {
    /// The correct processors that entered the view.
    Entered = 0,
    /// Those whose view message its leader heard.
    ViewHeard = 1,
    /// Those whose vote it heard.
    VoteHeard = 2,
    /// The marks: 1 view certificate formed, 2 quorum certificate formed.
    Marks = 3,
}

impl Scene<'_> {
    /// Whether a processor is faulty.
    pub const fn is_faulty(&self, processor: u64) -> bool {
        processor < 64 && self.run.faulty >> processor & 1 == 1
    }

    /// Whether the leader of a view is faulty.
    pub const fn is_led_by_faulty(&self, view: u64) -> bool {
        self.is_faulty(self.run.plan.lead(view))
    }

    /// The correct processors, by rising number.
    pub fn correct(&self) -> impl Iterator<Item = u64> + '_ {
        (0..self.run.plan.n.min(64)).filter(|&number| !self.is_faulty(number))
    }

    /// The faulty processors, by rising number.
    pub fn faulty(&self) -> impl Iterator<Item = u64> + '_ {
        (0..self.run.plan.n.min(64)).filter(|&number| self.is_faulty(number))
    }

    /// The present view of a processor.
    pub const fn view(&self, processor: u64) -> u64 {
        self.run.views[processor as usize]
    }

    /// One word of a view's tally, 0 where there is none.
    pub fn tallied(&self, view: u64, which: Word) -> u64 {
        let place = view as usize * 4 + which as usize;
        self.tally.get(place).copied().unwrap_or(0)
    }

    /// The messages held.
    pub fn messages(&self) -> impl ExactSizeIterator<Item = Fields> + Clone + '_ {
        Width::Two.messages(self.network, self.run.held)
    }

    /// The message at a place.
    pub fn message(&self, place: usize) -> Option<Message> {
        let [kind, view, processor, _] = self.messages().nth(place)?;
        words::message_of(kind, view, processor)
    }

    /// Who a held message is addressed to.
    pub const fn receiver(&self, [kind, view, processor, _]: Fields) -> u64 {
        if kind < 3 {
            self.run.plan.lead(view)
        } else {
            processor
        }
    }

    /// "A message is overdue when settled and now is at or past the later of
    /// its sending and settling times, plus `delta`": the time from which one
    /// sent then is.
    pub fn due(&self, sent: u64) -> u64 {
        sent.max(self.run.gst).saturating_add(self.run.plan.delta)
    }

    /// The places of the messages overdue now.
    pub fn overdue(&self) -> Vec<usize> {
        if !self.run.settled {
            return Vec::new();
        }
        let places = self.messages().enumerate();
        places
            .filter(|&(_, [.., sent])| self.run.time >= self.due(sent))
            .map(|(place, _)| place)
            .collect()
    }

    /// The ticks until the first correct clock comes to the clock time of an
    /// initial view.
    pub fn ticks_to_entry(&self) -> u64 {
        let round = self.run.plan.round().max(1);
        self.correct()
            .map(|number| round - self.run.clocks[number as usize] % round)
            .min()
            .unwrap_or(1)
    }

    /// The ticks until the first message held is overdue.
    pub fn ticks_to_overdue(&self) -> Option<u64> {
        let first = self.messages().map(|[.., sent]| sent).min()?;
        Some(self.due(first).saturating_sub(self.run.time))
    }

    /// The ticks until the highest correct clock would come to the limit.
    pub fn ticks_to_end(&self) -> u64 {
        let plan = self.run.plan;
        let highest = self
            .correct()
            .map(|number| self.run.clocks[number as usize])
            .max();
        plan.clock_limit().saturating_sub(highest.unwrap_or(0))
    }

    /// How many messages more fit.
    pub const fn room(&self) -> u64 {
        (self.network.len() as u64 / 2).saturating_sub(self.run.held)
    }

    /// Whether the adversary has a certificate to show: "for a correct leader
    /// of w, if formed; for a faulty one, if f plus the correct processors
    /// that entered w come to t+1 (vc) or n−t (qc)".
    pub fn exists(&self, certificate: Message) -> bool {
        let plan = self.run.plan;
        let view = certificate.view();
        let (mark, signers) = match certificate {
            Message::Vc(..) => (1, plan.view_signers()),
            _ => (2, plan.quorum_signers()),
        };
        if self.is_led_by_faulty(view) {
            let entered = self.tallied(view, Word::Entered).count_ones();
            u64::from(self.run.faulty.count_ones() + entered) >= signers
        } else {
            self.tallied(view, Word::Marks) & mark != 0
        }
    }
}

#[cfg(test)]
mod tests {
    use super::*;
    use reference::{apply, open, Event, Plan, Setup};

    /// n=4, delta 2, gamma 4, 6 views, processor 3 faulty, clocks 5 0 5 0,
    /// settled, after one tick.
    fn run() -> (Run, Vec<u64>, Vec<u64>) {
        let mut setup = Setup {
            plan: Plan {
                n: 4,
                delta: 2,
                gamma: 4,
                views: 6,
                k: 3,
            },
            faulty: 8,
            clocks: [0; 64],
        };
        (setup.clocks[0], setup.clocks[2]) = (5, 5);
        let (mut run, mut tally, mut network) = (Run::unopened(), vec![0; 24], vec![0; 32]);
        open(&setup, &mut run, &mut tally, &mut network);
        for event in [Event::Settle, Event::Tick(1)] {
            apply(&mut run, event, &mut tally, &mut network);
        }
        (run, tally, network)
    }

    #[test]
    fn edges_are_where_document_01_puts_them() {
        let (run, tally, network) = run();
        let scene = |run| Scene {
            run,
            tally: &tally,
            network: &network,
        };
        assert_eq!(scene(&run).correct().collect::<Vec<_>>(), [0, 1, 2]);
        assert_eq!(scene(&run).ticks_to_entry(), 6);
        assert_eq!(scene(&run).ticks_to_overdue(), Some(1));
        assert_eq!(scene(&run).ticks_to_end(), 18);
        assert_eq!(scene(&run).room(), 10);
        assert!(scene(&run).overdue().is_empty());
        assert!(!scene(&run).exists(Message::Vc(0, 1)));
        let later = Run {
            time: 2,
            ..run.clone()
        };
        assert_eq!(scene(&later).overdue().len(), 6);
    }
}
