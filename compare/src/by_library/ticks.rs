//! Runs of many ticks in one call. The proved code leaps over quiet ticks, the
//! reference does each of them; so the ends of leaps are what is looked at.

use super::{sound, states};
use crate::adversary::{self, Pace, Style};
use crate::calls::{Call, State};
use crate::counts::Counts;
use crate::difference::Difference;
use crate::draws::Draws;
use crate::openings;
use reference::{Event, Plan};

/// Runs of ticks from one state on.
const RUNS: u64 = 8;
/// The furthest edge that is gone to from copies as well.
const MOST_AROUND: u64 = 300_000;

/// One state and runs of ticks from there, with other events between them.
pub fn case(draws: &mut Draws, counts: &mut Counts) -> Result<(), Difference> {
    let (mut state, style) = start(draws);
    for _ in 0..RUNS {
        let ticks = many(&state, draws);
        let call = states::applying(Event::Tick(ticks), draws);
        let check = sound::applied(&mut state, &call, counts)?;
        around(&state, draws, counts)?;
        // Without views left, or with a time beyond the clocks' limit, no
        // tick is done any more.
        if check == 17 || check == 9 {
            return Ok(());
        }
        for _ in 0..draws.one_of(&[0, 1, 5, 20]) {
            let event = deliver_or(check, &state, &style, draws);
            let call = states::applying(event, draws);
            sound::applied(&mut state, &call, counts)?;
        }
    }
    Ok(())
}

/// A state to tick from: reached by events, or any that check 9 passes.
fn start(draws: &mut Draws) -> (State, Style) {
    if draws.per_mille(300) {
        let state = states::arbitrary(draws);
        let style = Style::of(&state, draws);
        return (state, style);
    }
    let plan = long_plan(draws);
    let setup = openings::accepted_of(draws, plan);
    let state = states::lent_to(&setup, draws);
    let events = draws.one_of(&[0, 1, 10, 40]);
    let (state, mut style) = states::play(state, &setup, draws, events);
    // The lengths of runs of ticks are chosen here.
    style.pace = Pace::One;
    (state, style)
}

/// A plan whose runs last long: quiet for long stretches, or with an entry
/// every few ticks.
fn long_plan(draws: &mut Draws) -> Plan {
    let n = draws.one_of(&[4, 5, 7, 10, 16, 64]);
    let few = draws.per_mille(20);
    let (delta, gamma, views) = if few {
        (1_000, 10_000, 6_000)
    } else {
        draws.one_of(&[
            (1, 2, 900),
            (1, 2, 300),
            (5, 10, 300),
            (3, 100, 300),
            (50, 100, 900),
            (500, 1_000, 90),
            (1, 10_000, 30),
            (1_000, 10_000, 30),
        ])
    };
    let plan = Plan {
        n: if few { n.min(7) } else { n },
        delta,
        gamma,
        views,
        k: Plan::VIEWS_PER_LEADER,
    };
    openings::with_turns(plan, openings::per_leader(draws))
}

/// How many ticks: to the next entry, overdue message or end, to an entry some
/// rounds on, or one less or more; or far too many.
fn many(state: &State, draws: &mut Draws) -> u64 {
    let Some(run) = state.decoded() else {
        return 1;
    };
    let plan = run.plan;
    let scene = state.scene(&run);
    let edge = adversary::edge(scene, draws);
    let rounds = draws.below(8) * plan.round();
    let later = scene.ticks_to_entry() + rounds + draws.below(3);
    let second = scene.ticks_to_overdue().unwrap_or(1) + plan.delta + draws.below(3);
    let far = draws.one_of(&[1_000, 100_000, 1_000_000, 3_000_000]);
    // Only where a run cannot last too long for one tick after the other.
    let far = match plan.clock_limit() {
        0..1_000_000 if draws.per_mille(300) => u64::MAX,
        _ => far,
    };
    draws
        .one_of(&[edge, edge, later - 1, second - 1, far])
        .max(1)
}

/// From a state that ticks have led to, the ticks to each edge and their
/// neighbours, each from a copy.
fn around(state: &State, draws: &mut Draws, counts: &mut Counts) -> Result<(), Difference> {
    let Some(run) = state.decoded() else {
        return Ok(());
    };
    let scene = state.scene(&run);
    let edges = [
        Some(scene.ticks_to_entry()),
        scene.ticks_to_overdue(),
        Some(scene.ticks_to_end()),
    ];
    let edge = draws.one_of(&edges).unwrap_or(1);
    if edge > MOST_AROUND {
        return Ok(());
    }
    for ticks in edge.saturating_sub(1)..=edge + 1 {
        let call = Call::Apply([5, 0, ticks, 0]);
        sound::applied(&mut state.clone(), &call, counts)?;
    }
    Ok(())
}

/// The next event of a style, or, where ticks were ended by 16 or 18, one that
/// takes a message out.
fn deliver_or(check: u64, state: &State, style: &Style, draws: &mut Draws) -> Event {
    let run = match state.decoded() {
        Some(run) if (check == 16 || check == 18) && draws.per_mille(600) => run,
        _ => return states::next(state, style, draws),
    };
    let scene = state.scene(&run);
    let overdue = scene.overdue();
    let place = if overdue.is_empty() {
        draws.place(scene.messages().len())
    } else {
        draws.one_of(&overdue)
    };
    scene.message(place).map_or(Event::Settle, Event::Deliver)
}
