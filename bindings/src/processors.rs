//! One processor alone.

use crate::raw;
use crate::runs::Plan;

/// One processor's own record.
#[derive(Clone, Copy, Debug, PartialEq, Eq, Hash)]
pub struct Processor {
    /// Its number, from 0.
    pub number: u64,
    /// Its clock.
    pub clock: u64,
    /// The view that it is in.
    pub view: u64,
}

/// What reaches one processor.
#[derive(Clone, Copy, Debug, PartialEq, Eq, Hash)]
pub enum Input {
    /// A tick of its clock.
    Tick,
    /// A view certificate for the view.
    Vc(u64),
    /// A quorum certificate for the view.
    Qc(u64),
}

/// The messages that a processor sends in one move, to the leader of the view named, faulty or not.
#[derive(Clone, Copy, Debug, PartialEq, Eq, Hash)]
pub enum Sends {
    /// None.
    Nothing,
    /// Its vote for the view.
    Vote(u64),
    /// Its view message and then its vote for the view.
    ViewAndVote(u64),
}

/// The answer of one processor.
#[derive(Clone, Copy, Debug, PartialEq, Eq, Hash)]
pub enum Stepped {
    /// It moved, if at all, and sends this.
    Sent(Sends),
    /// The check, 9, 10, 11 or 17; the record is as it was.
    Refused(u64),
}

/// Moves one processor by rules 1 to 3: its clock and view are altered in place.
pub fn step(plan: Plan, processor: &mut Processor, input: Input) -> Stepped {
    let mut words = [processor.number, processor.clock, processor.view, 0];
    let (input, view) = match input {
        Input::Tick => (0, 0),
        Input::Vc(view) => (3, view),
        Input::Qc(view) => (4, view),
    };
    let Plan {
        n,
        delta,
        gamma,
        views,
        k,
    } = plan;
    match raw::step(n, delta, gamma, views, k, &mut words, input, view) {
        0 => {
            let [number, clock, view, sends] = words;
            *processor = Processor {
                number,
                clock,
                view,
            };
            Stepped::Sent(match sends {
                0 => Sends::Nothing,
                1 => Sends::Vote(view),
                _ => Sends::ViewAndVote(view),
            })
        }
        check => Stepped::Refused(check),
    }
}
