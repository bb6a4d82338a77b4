//! A watch over a list of events: "Demand 3, word by word".
//!
//! It reckons for itself which votes correct leaders heard, which quorum
//! certificates that forms, when the network settled and how many ticks were
//! accepted since, from the events and answers alone. Of the run it reads the
//! clocks, views and time, of the tally one mark, to see that they agree.

use crate::message::{Event, Message};
use crate::plan::Plan;
use crate::run::{Answer, Run};
use crate::set;
use crate::tally::{self, Word};

/// What is kept from event to event of one list.
#[derive(Clone, Debug)]
pub struct Watch {
    plan: Plan,
    faulty: u64,
    /// The single ticks accepted in all.
    time: u64,
    /// Whether an accepted `(settle)` has stood in the list.
    settled: bool,
    /// The single ticks accepted since then.
    ticks_since: u64,
    /// Per view, the signers whose votes its correct leader heard.
    votes: Vec<u64>,
    /// Per view, whether its correct leader has formed the quorum certificate.
    formed: Vec<bool>,
    /// The least view whose quorum certificate was formed since settling: if
    /// every correct processor is above any such view, then above this one.
    least_since: Option<u64>,
}

impl Watch {
    /// A watch from an accepted opening on, and whether its run keeps the
    /// sentences.
    pub fn opened(run: &Run) -> (Self, Result<(), String>) {
        let views = run.plan.views.min(6_000) as usize;
        let watch = Self {
            plan: run.plan,
            faulty: run.faulty,
            time: 0,
            settled: false,
            ticks_since: 0,
            votes: vec![0; views],
            formed: vec![false; views],
            least_since: None,
        };
        let kept = watch.judge(run);
        (watch, kept)
    }

    /// Takes in the next event of the list, accepted or refused, with its
    /// answer and the run and tally it left; answers whether they keep the
    /// sentences.
    pub fn after(
        &mut self,
        event: Event,
        answer: &Answer,
        run: &Run,
        tally: &[u64],
    ) -> Result<(), String> {
        let recorded = match *answer {
            Answer::Refused(_) => Ok(()),
            Answer::Done { ticks, .. } | Answer::Stopped { ticks, .. } => {
                self.accept(event, ticks, tally)
            }
        };
        recorded.and(self.judge(run))
    }

    /// The single ticks accepted since settling.
    pub const fn ticks_since_settling(&self) -> u64 {
        self.ticks_since
    }

    /// The least view whose quorum certificate a correct leader has formed
    /// since settling.
    pub const fn least_formed_since_settling(&self) -> Option<u64> {
        self.least_since
    }

    /// The ticks since settling beyond which the second sentence is due.
    pub const fn patience(&self) -> u64 {
        self.plan.settling_bound(set::size(self.faulty))
    }

    /// Takes in an accepted event. "Ticks accepted since then, by some event,
    /// are the single ticks that the tick events after that `(settle)` did."
    fn accept(&mut self, event: Event, ticks: u64, tally: &[u64]) -> Result<(), String> {
        match event {
            Event::Deliver(Message::Vote(view, signer))
            | Event::Sign(Message::Vote(view, signer)) => self.hear(view, signer, tally),
            Event::Settle if self.settled => Err("settled a second time".into()),
            Event::Settle => {
                self.settled = true;
                Ok(())
            }
            Event::Tick(most) if ticks == 0 || ticks > most => {
                Err(format!("{ticks} ticks accepted of {most}"))
            }
            Event::Tick(_) => {
                self.time = self.time.saturating_add(ticks);
                if self.settled {
                    self.ticks_since = self.ticks_since.saturating_add(ticks);
                }
                Ok(())
            }
            _ => Ok(()),
        }
    }

    /// A vote that a leader heard. "A quorum certificate for w is formed since
    /// settling if rule 5 forms it in an event that stands after that
    /// `(settle)` in the list".
    fn hear(&mut self, view: u64, signer: u64, tally: &[u64]) -> Result<(), String> {
        let known = (view as usize) < self.votes.len() && view < self.plan.views;
        if !known || signer >= self.plan.n {
            return Err(format!("vote of {signer} for {view} accepted out of range"));
        }
        if set::holds(self.faulty, self.plan.lead(view)) {
            return Ok(());
        }
        let place = view as usize;
        self.votes[place] |= set::only(signer);
        if !self.formed[place] && set::size(self.votes[place]) >= self.plan.quorum_signers() {
            self.formed[place] = true;
            if self.settled {
                self.least_since = Some(self.least_since.map_or(view, |least| least.min(view)));
            }
        }
        self.compare_mark(view, tally)
    }

    /// Whether the tally's mark of a view's quorum certificate is the one
    /// reckoned here.
    fn compare_mark(&self, view: u64, tally: &[u64]) -> Result<(), String> {
        let place = view as usize * tally::WORDS + Word::Marks as usize;
        let marked = tally
            .get(place)
            .is_some_and(|marks| marks & tally::QUORUM_FORMED != 0);
        if marked == self.formed[view as usize] {
            Ok(())
        } else {
            Err(format!("quorum certificate {view}: mark is {marked}"))
        }
    }

    /// Whether a run keeps both sentences now.
    fn judge(&self, run: &Run) -> Result<(), String> {
        if run.time != self.time {
            let reckoned = self.time;
            return Err(format!("time is {} after {reckoned} ticks", run.time));
        }
        self.judge_clocks(run)?;
        self.judge_progress(run)
    }

    /// "The clock condition: check 8's sentence holds of no correct clock.
    /// Processors with equal clocks each count."
    fn judge_clocks(&self, run: &Run) -> Result<(), String> {
        let mut table = [0; 64];
        let mut count = 0;
        for processor in self.correct() {
            table[count] = run.clocks[processor as usize];
            count += 1;
        }
        let clocks = &mut table[..count];
        clocks.sort_unstable();
        for &clock in clocks.iter() {
            let least = clock.saturating_sub(self.plan.gamma);
            let near = count - clocks.partition_point(|&other| other < least);
            if (near as u64) < self.plan.view_signers() {
                return Err(format!("clock {clock} has {near} correct clocks near it"));
            }
        }
        Ok(())
    }

    /// Once more than `patience` ticks were accepted since settling, a correct
    /// leader has formed a quorum certificate for some w since settling, and
    /// every correct processor is in "a later view", "w+1 or above".
    fn judge_progress(&self, run: &Run) -> Result<(), String> {
        if self.ticks_since <= self.patience() {
            return Ok(());
        }
        let ticks = self.ticks_since;
        let Some(least) = self.least_since else {
            return Err(format!("no quorum certificate formed in {ticks} ticks"));
        };
        let behind = self
            .correct()
            .find(|&number| run.views[number as usize] <= least);
        match behind {
            None => Ok(()),
            Some(number) => Err(format!("{number} not above view {least} in {ticks} ticks")),
        }
    }

    /// The correct processors, by rising number.
    fn correct(&self) -> impl Iterator<Item = u64> {
        set::members(set::below(self.plan.n) & !self.faulty)
    }
}
