//! Runs of single ticks.

use crate::check;
use crate::form::Form;
use crate::network;
use crate::processor;
use crate::run::{Answer, Run};
use crate::set;
use crate::state::State;

/// What each single tick looks at, kept while a run of ticks lasts so that it
/// need not be sought anew.
struct Pace {
    /// The correct processors.
    correct: u64,
    /// The highest correct clock.
    highest: u64,
    /// Per correct processor, the clock from which one tick enters the next
    /// initial view.
    eve: [u64; 64],
    /// The earliest sending time of the messages held in a settled network;
    /// in an unsettled one none falls due.
    earliest: Option<u64>,
}

impl Pace {
    fn of(state: &State<impl Form>) -> Self {
        let run = &*state.run;
        let mut pace = Self {
            correct: run.correct(),
            highest: 0,
            eve: [0; 64],
            earliest: None,
        };
        for processor in set::members(pace.correct) {
            let place = processor as usize;
            let next = run.plan.next_initial(run.views[place]);
            pace.highest = pace.highest.max(run.clocks[place]);
            pace.eve[place] = run.plan.clock_time(next) - 1;
        }
        if run.settled {
            pace.earliest = network::earliest(state.form, state.network, run.held);
        }
        pace
    }

    /// The correct processors that a tick brings to the clock time of an
    /// initial view.
    fn entering(&self, run: &Run) -> u64 {
        let n = run.plan.n as usize;
        let mut entering = 0;
        for (place, (clock, eve)) in run.clocks[..n].iter().zip(&self.eve[..n]).enumerate() {
            entering |= u64::from(clock == eve) << place;
        }
        entering & self.correct
    }
}

/// "up to m single ticks. ... The run of ticks ends before the first refused
/// tick and reports how many it did". "A run of one tick or more is an
/// accepted event; one that did none is refused by that check."
pub(crate) fn run_of_ticks(state: &mut State<impl Form>, most: u64) -> Answer {
    let mut pace = Pace::of(state);
    let mut ticks = 0;
    while ticks < most {
        if let Err(check) = tick(state, &mut pace) {
            return stopped(ticks, state.run.held, check);
        }
        ticks += 1;
    }
    Answer::Done {
        ticks,
        held: state.run.held,
    }
}

/// The answer to a run of ticks that met a refusal.
const fn stopped(ticks: u64, held: u64, check: u64) -> Answer {
    if ticks == 0 {
        Answer::Refused(check)
    } else {
        Answer::Stopped { ticks, held, check }
    }
}

/// "A single tick adds 1 to time and to every correct clock." Those that it
/// brings to the clock time of an initial view enter it, by rising number and
/// at the new time.
fn tick(state: &mut State<impl Form>, pace: &mut Pace) -> Result<(), u64> {
    if is_overdue(state.run, pace.earliest) {
        return Err(check::OVERDUE);
    }
    if pace.highest >= state.run.plan.clock_limit() - 1 {
        return Err(check::LAST_CLOCK);
    }
    let entering = pace.entering(state.run);
    if entering != 0 {
        state.room(0, sent_by_clock(state, entering))?;
    }
    advance(state.run, pace);
    if entering != 0 {
        enter_by_clock(state, pace, entering);
    }
    Ok(())
}

/// "A message is overdue when settled and now is at or past the later of its
/// sending and settling times, plus `delta`": some message is, if the one
/// first sent is.
pub(crate) fn is_overdue(run: &Run, earliest: Option<u64>) -> bool {
    run.settled
        && earliest.is_some_and(|sent| run.time >= sent.max(run.gst).saturating_add(run.plan.delta))
}

/// The time and every correct clock, one tick on.
fn advance(run: &mut Run, pace: &mut Pace) {
    run.time = run.time.saturating_add(1);
    pace.highest += 1;
    for (place, clock) in run.clocks[..run.plan.n as usize].iter_mut().enumerate() {
        *clock += (pace.correct >> place) & 1;
    }
}

/// How many messages the processors entering by the next tick put into the
/// network.
fn sent_by_clock(state: &State<impl Form>, entering: u64) -> u64 {
    set::members(entering)
        .filter_map(|number| {
            let clock = state.run.clocks[number as usize] + 1;
            processor::entered_by_clock(state.run.plan, clock)
        })
        .map(|view| state.sent_on_entering(view))
        .sum()
}

/// Rule 1, for all the processors whose clocks the tick has brought there.
fn enter_by_clock(state: &mut State<impl Form>, pace: &mut Pace, entering: u64) {
    let held = state.run.held;
    for number in set::members(entering) {
        let clock = state.run.clocks[number as usize];
        pace.eve[number as usize] += state.run.plan.round();
        if let Some(view) = processor::entered_by_clock(state.run.plan, clock) {
            state.enter(number, view);
        }
    }
    if state.run.held > held {
        let now = state.run.time;
        pace.earliest = Some(pace.earliest.map_or(now, |sent| sent.min(now)));
    }
}
