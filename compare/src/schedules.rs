//! Drawn schedules: openings, styles of play, and lines that disturb them.

use crate::adversary::{self, Order, Pace, Settling, Style};
use crate::damage;
use crate::draws::Draws;
use crate::lies::Lies;
use crate::openings;
use crate::text::{self, Heading};
use crate::trace::Trace;
use crate::wild;
use reference::{Answer, Event, Plan, Setup};

/// The views that the program's lent words are enough for.
const MOST_VIEWS: u64 = 900;

/// Numbers before the clocks that no opening has.
pub const NO_HEADINGS: [Heading; 2] = [Heading::Four, Heading::Seven];

/// The refusals in a row after which a play is given up: a network so full
/// that every delivery would send too much refuses on and on.
const MOST_REFUSALS: u32 = 40;

/// Adds one drawn schedule to a trace: an opening and a way to go on.
pub fn drawn(trace: &mut Trace, draws: &mut Draws) {
    let disturbed = draws.one_of(&[0, 10, 50, 200]);
    while draws.per_mille(100) {
        disturb(trace, draws);
    }
    let setup = openings::accepted(draws, MOST_VIEWS);
    open(trace, draws, &setup);
    let style = Style::drawn(draws, setup.plan.n, setup.faulty);
    let lines = draws.one_of(&[40, 150, 400, 400, 900]);
    play(trace, draws, &style, disturbed, lines);
}

/// Adds the line of an opening, with k or without.
fn open(trace: &mut Trace, draws: &mut Draws, setup: &Setup) {
    let heading = openings::heading(setup, draws);
    trace.opening(heading, setup);
}

/// Adds a schedule whose delays are the longest legal ones from the settling
/// on, and that lasts until demand 3 is due whole; with k views per leader.
pub fn patient(trace: &mut Trace, draws: &mut Draws, n: u64, k: u64) {
    let (delta, gamma) = draws.one_of(&[(1, 2), (2, 4), (2, 5), (5, 10), (3, 10)]);
    let plan = Plan {
        n,
        delta,
        gamma,
        views: MOST_VIEWS,
        k,
    };
    let setup = openings::accepted_of(draws, openings::with_turns(plan, k));
    open(trace, draws, &setup);
    let favourite = adversary::correct(draws, n, setup.faulty);
    let style = Style {
        order: draws.one_of(&[Order::Last, Order::Last, Order::Starve(favourite)]),
        deliveries: 900,
        lies: draws.one_of(&[
            Lies::None,
            Lies::Decisive,
            Lies::ToOne(favourite),
            Lies::Any,
        ]),
        lying: draws.one_of(&[20, 100]),
        settling: draws.one_of(&[Settling::First, Settling::At(k * gamma)]),
        pace: draws.one_of(&[Pace::One, Pace::Edge, Pace::UpTo(2 * delta)]),
    };
    let (lists, due) = (trace.counts().lists, trace.counts().due);
    for _ in 0..60 {
        let goes_on = play(trace, draws, &style, 2, 500);
        // A disturbance may have opened another run.
        if !goes_on || trace.counts().due > due || trace.counts().lists > lists {
            return;
        }
    }
}

/// Adds so many lines of play, so many in a thousand of them disturbances.
/// Answers whether there are views left to go on with.
fn play(trace: &mut Trace, draws: &mut Draws, style: &Style, disturbed: u64, lines: u64) -> bool {
    let mut left = lines;
    let mut refusals = 0;
    let mut goes_on = true;
    while left > 0 {
        left -= 1;
        if draws.per_mille(disturbed) {
            disturb(trace, draws);
            continue;
        }
        if !trace.opened() {
            return false;
        }
        let event = style.next(trace.scene(), draws);
        let answer = trace.event(event);
        refusals = match answer {
            Answer::Refused(_) => refusals + 1,
            _ => 0,
        };
        if goes_on && (refusals > MOST_REFUSALS || is_last(style, event, &answer)) {
            // Some lines more show what such a run answers.
            goes_on = false;
            left = left.min(10);
        }
    }
    goes_on
}

/// Whether an answer means that a run is near its end: the views are used up,
/// or ticks are refused and nothing will ever be delivered.
const fn is_last(style: &Style, event: Event, answer: &Answer) -> bool {
    let check = match *answer {
        Answer::Done { .. } => return false,
        Answer::Stopped { check, .. } | Answer::Refused(check) => check,
    };
    let is_stuck = matches!(style.order, Order::Never) && matches!(event, Event::Tick(_));
    check == 17 || is_stuck
}

/// Adds a line that is not part of the play.
pub fn disturb(trace: &mut Trace, draws: &mut Draws) {
    let plan = if trace.opened() {
        trace.scene().run.plan
    } else {
        openings::accepted(draws, MOST_VIEWS).plan
    };
    match draws.below(20) {
        0..=3 => {
            let event = wild::event(plan, draws);
            trace.event(event);
        }
        4..=8 if trace.opened() => {
            let event = wild::near_miss(trace.scene(), draws);
            trace.event(event);
        }
        9..=13 => damage_event(trace, draws, plan),
        14 | 15 => damage_opening(trace, draws),
        16 | 17 => {
            let setup = openings::refused(draws, MOST_VIEWS);
            open(trace, draws, &setup);
        }
        18 if draws.per_mille(200) => {
            let line = damage::long(draws);
            trace.line(&line);
        }
        _ => {
            let line = damage::noise(draws);
            trace.line(&line);
        }
    }
}

/// A damaged line of an event.
fn damage_event(trace: &mut Trace, draws: &mut Draws, plan: Plan) {
    let event = if trace.opened() && draws.per_mille(700) {
        wild::near_miss(trace.scene(), draws)
    } else {
        wild::event(plan, draws)
    };
    let line = text::event(event);
    let line = if draws.per_mille(850) {
        damage::damaged(&line, draws)
    } else {
        damage::huge(&line, draws)
    };
    trace.line(&line);
}

/// A damaged line of an opening, or one with a wrong number of clocks or of
/// numbers before them.
fn damage_opening(trace: &mut Trace, draws: &mut Draws) {
    let setup = openings::accepted(draws, MOST_VIEWS);
    let n = setup.plan.n as usize;
    let heading = openings::heading(&setup, draws);
    let line = text::headed(heading, &setup, n);
    let line = match draws.below(5) {
        0 => {
            let clocks = draws.one_of(&[0, 1, n - 1, n + 1, 64, 65, 2 * n]);
            text::headed(heading, &setup, clocks)
        }
        1 => damage::huge(&line, draws),
        2 => text::headed(draws.one_of(&NO_HEADINGS), &setup, n),
        _ => damage::damaged(&line, draws),
    };
    trace.line(&line);
}

/// A schedule that fills the network of 64 processors: nothing is delivered
/// before the ticks are refused by 18, and then as little as goes.
pub fn crowded(trace: &mut Trace, draws: &mut Draws) {
    let plan = Plan {
        n: 64,
        delta: 1,
        gamma: draws.one_of(&[2, 9]),
        views: 300,
        k: Plan::VIEWS_PER_LEADER,
    };
    let plan = openings::with_turns(plan, openings::per_leader(draws));
    let setup = openings::accepted_of(draws, plan);
    open(trace, draws, &setup);
    let mut style = Style {
        order: Order::Never,
        deliveries: 1_000,
        lies: Lies::Any,
        lying: 300,
        settling: Settling::Never,
        pace: Pace::Long,
    };
    play(trace, draws, &style, 20, 20);
    style.order = Order::Any;
    style.deliveries = 700;
    play(trace, draws, &style, 20, 600);
}

/// The processors' everyday: t of them faulty, a network that settles at once,
/// messages in any order, some ticks, signatures and shown certificates
/// between them; a new run when the views are used up. Nearly all of it is
/// accepted. The same for the same n.
pub fn steady(n: u64, lines: u64) -> Trace {
    let mut trace = Trace::new();
    let mut draws = Draws::new(n);
    let plan = Plan {
        n,
        delta: 4,
        gamma: 16,
        views: MOST_VIEWS,
        k: Plan::VIEWS_PER_LEADER,
    };
    let style = Style {
        order: Order::Any,
        deliveries: 900,
        lies: Lies::Any,
        lying: 150,
        settling: Settling::First,
        pace: Pace::UpTo(2),
    };
    while trace.counts().calls < lines {
        let setup = openings::accepted_of(&mut draws, plan);
        if u64::from(setup.faulty.count_ones()) < plan.tolerance() {
            continue;
        }
        trace.opening(Heading::Six, &setup);
        play(&mut trace, &mut draws, &style, 0, lines);
    }
    trace
}

#[cfg(test)]
mod tests {
    use super::*;

    #[test]
    fn schedules_meet_every_check() {
        let mut trace = Trace::new();
        let mut draws = Draws::new(11);
        trace.event(Event::Settle);
        for _ in 0..150 {
            drawn(&mut trace, &mut draws);
        }
        crowded(&mut trace, &mut draws);
        assert_eq!(trace.counts().met_below(1), []);
        assert!(trace.complaint().is_none());
        let counts = trace.counts();
        assert!(2 * counts.accepted > counts.calls, "{counts}");
    }

    #[test]
    fn patient_ones_come_under_the_second_sentence() {
        let mut trace = Trace::new();
        let mut draws = Draws::new(12);
        for (n, k) in [4, 5, 7, 10, 16, 64, 4].into_iter().zip(2..) {
            patient(&mut trace, &mut draws, n, k);
        }
        assert_eq!(trace.counts().due, 7);
        assert_eq!(trace.counts().turns.due[2..], [1; 7]);
        assert!(trace.complaint().is_none());
    }

    #[test]
    fn the_everyday_is_mostly_accepted() {
        for n in [4, 16, 64] {
            let trace = steady(n, 3_000);
            let counts = trace.counts();
            assert!(10 * counts.accepted > 9 * counts.calls, "{counts}");
        }
    }
}
