//! How one processor moves: rules 1 to 3, and its own entry point.

use crate::check;
use crate::limits;
use crate::plan::Plan;

/// What one processor keeps: "its clock and view are lent and altered there".
#[derive(Clone, Copy, PartialEq, Eq, Debug)]
pub struct Processor {
    /// Its number.
    pub number: u64,
    /// Its clock.
    pub clock: u64,
    /// Its present view.
    pub view: u64,
}

/// "one tick or one certificate".
#[derive(Clone, Copy, PartialEq, Eq, Debug)]
pub enum Input {
    /// One tick.
    Tick,
    /// A view certificate for a view.
    Vc(u64),
    /// A quorum certificate for a view.
    Qc(u64),
}

/// "answers which messages it sends, for leaders faulty or not".
#[derive(Clone, Copy, PartialEq, Eq, Debug)]
pub enum Stepped {
    /// No message: no view was entered.
    Nothing,
    /// Its vote for the view it entered, which is not initial.
    Vote(u64),
    /// Its view message and then its vote for the initial view it entered.
    ViewAndVote(u64),
    /// A check refused the step; the processor is as before.
    Refused(u64),
}

/// Rule 1: "a tick that brings the clock to the clock time of w, w initial,
/// enters w". The clock is the one after the tick.
pub(crate) const fn entered_by_clock(plan: Plan, clock: u64) -> Option<u64> {
    if clock.is_multiple_of(plan.round()) {
        Some(clock / plan.gamma)
    } else {
        None
    }
}

/// Rule 2: "Quorum certificate for w at or above the present view: enter w+1.
/// Below it, nothing."
pub(crate) const fn entered_by_quorum(present: u64, view: u64) -> Option<u64> {
    if view >= present {
        Some(view + 1)
    } else {
        None
    }
}

/// Rule 3: "View certificate for initial w above the present view: enter w.
/// Otherwise nothing."
pub(crate) const fn entered_by_view(present: u64, view: u64) -> Option<u64> {
    if view > present {
        Some(view)
    } else {
        None
    }
}

/// Whether a clock and a view belong together: check 9 refuses "a correct
/// clock ... at or above" the clock limit, or "below its view's clock time or
/// not below that of the next initial view". The plan is within its limits.
pub(crate) const fn is_placed(plan: Plan, clock: u64, view: u64) -> bool {
    // A view from `views` on has a clock time at or above the limit, so no
    // clock below the limit can stand in it.
    if clock >= plan.clock_limit() || view >= plan.views {
        return false;
    }
    let next = plan.next_initial(view);
    plan.clock_time(view) <= clock && clock < plan.clock_time(next)
}

/// One step of one processor: rules 1 to 3, with checks "9 (limits 2 to 4, its
/// own clock and view), 10, 11 and 17".
pub fn step(plan: Plan, processor: &mut Processor, input: Input) -> Stepped {
    match moved(plan, *processor, input) {
        Err(check) => Stepped::Refused(check),
        Ok((clock, None)) => {
            processor.clock = clock;
            Stepped::Nothing
        }
        Ok((clock, Some(view))) => {
            processor.clock = clock.max(plan.clock_time(view));
            processor.view = view;
            if plan.initial(view) {
                Stepped::ViewAndVote(view)
            } else {
                Stepped::Vote(view)
            }
        }
    }
}

/// The clock a step comes to, forwarding on entering apart, and the view it
/// enters; or the check that refuses it.
fn moved(plan: Plan, from: Processor, input: Input) -> Result<(u64, Option<u64>), u64> {
    if limits::plan(plan).is_err() || !is_placed(plan, from.clock, from.view) {
        return Err(check::UNSOUND);
    }
    if from.number >= plan.n {
        return Err(check::OUT_OF_RANGE);
    }
    let (clock, entered) = match input {
        Input::Tick => (from.clock + 1, entered_by_clock(plan, from.clock + 1)),
        Input::Vc(view) | Input::Qc(view) if view >= plan.views => {
            return Err(check::OUT_OF_RANGE);
        }
        Input::Vc(view) if !plan.initial(view) => return Err(check::NOT_INITIAL),
        Input::Vc(view) => (from.clock, entered_by_view(from.view, view)),
        Input::Qc(view) => (from.clock, entered_by_quorum(from.view, view)),
    };
    if clock >= plan.clock_limit() || entered.is_some_and(|view| view >= plan.views) {
        return Err(check::LAST_CLOCK);
    }
    Ok((clock, entered))
}
