//! Sequences of openings and events on sound runs, in networks that are often
//! full and tallies with words to spare, under the watch of demand 3; between
//! them reports of their traffic.

use super::watched::{time, Watched};
use super::{reports, states, sums};
use crate::adversary::{Order, Pace, Settling, Style};
use crate::calls::{Call, State};
use crate::counts::Counts;
use crate::difference::Difference;
use crate::draws::Draws;
use crate::openings;
use crate::wild;
use crate::words::{setup_of, SETUP_WORDS};
use reference::Event;

/// Calls in one sequence, one of these; the longest may come under demand 3's
/// second sentence.
const CALLS: [u64; 4] = [60, 60, 60, 500];
/// How many in a thousand sequences are played so that it does, and the calls
/// of one of them.
const PATIENT: u64 = 80;
const PATIENT_CALLS: u64 = 700;
/// The refusals in a row after which a sequence is given up.
const MOST_REFUSALS: u64 = 10;
/// How many in a thousand sequences begin with sums that are not the opening's.
const OTHER_SUMS: u64 = 300;
/// How many in a thousand events are followed by a report.
const REPORTS: u64 = 150;
/// The views that a refused opening's lent words are enough for.
const MOST_VIEWS: u64 = 30;

/// One sequence.
pub fn case(draws: &mut Draws, counts: &mut Counts) -> Result<(), Difference> {
    if draws.per_mille(PATIENT) {
        return patient(draws, counts);
    }
    let mut watched = Watched::default();
    let mut state = if draws.per_mille(150) {
        let state = states::arbitrary(draws);
        watched.handed_in(&state);
        state
    } else {
        let (mut state, setup) = states::fresh(draws);
        let call = states::opening(&setup, draws);
        let check = opened(&mut state, &call, counts)?;
        watched.opened(&call, check, &state, counts)?;
        if draws.per_mille(OTHER_SUMS) {
            sums::hand_in(&mut state, draws);
            watched.handed_in(&state);
        }
        state
    };
    let style = Style::of(&state, draws);
    let calls = draws.one_of(&CALLS);
    go_on(&mut state, (&style, calls), &mut watched, draws, counts)
}

/// One sequence that settles at once and delivers late, with any number of
/// views per leader.
fn patient(draws: &mut Draws, counts: &mut Counts) -> Result<(), Difference> {
    let mut watched = Watched::default();
    let (mut state, setup) = states::lasting(draws);
    let call = states::opening(&setup, draws);
    let check = opened(&mut state, &call, counts)?;
    watched.opened(&call, check, &state, counts)?;
    let style = Style {
        order: draws.one_of(&[Order::Last, Order::Last, Order::Oldest]),
        deliveries: 900,
        lying: 20,
        settling: Settling::First,
        pace: draws.one_of(&[Pace::One, Pace::Edge]),
        ..Style::of(&state, draws)
    };
    let played = (&style, PATIENT_CALLS);
    go_on(&mut state, played, &mut watched, draws, counts)
}

/// Events in a style, so many calls, with others between them.
fn go_on(
    state: &mut State,
    (style, calls): (&Style, u64),
    watched: &mut Watched,
    draws: &mut Draws,
    counts: &mut Counts,
) -> Result<(), Difference> {
    let mut refusals = 0;
    for _ in 0..calls {
        if refusals > MOST_REFUSALS {
            break;
        }
        if draws.per_mille(30) {
            let setup = openings::refused(draws, MOST_VIEWS);
            let call = states::opening(&setup, draws);
            let check = opened(state, &call, counts)?;
            watched.opened(&call, check, state, counts)?;
        }
        let event = event(state, style, draws);
        let call = states::applying(event, draws);
        let before = time(state);
        let check = applied(state, &call, counts)?;
        watched.applied(&call, before, check, state, counts)?;
        if draws.per_mille(REPORTS) {
            let check = reports::reported(state, draws, counts)?;
            watched.reported(check, state)?;
        }
        let goes_on = check == 0 || time(state) > before;
        refusals = if goes_on { 0 } else { refusals + 1 };
    }
    Ok(())
}

/// The next event of a style, or at times another one.
pub fn event(state: &State, style: &Style, draws: &mut Draws) -> Event {
    if draws.per_mille(150) {
        disturbance(state, draws)
    } else {
        states::next(state, style, draws)
    }
}

/// An event that is not part of the play.
fn disturbance(state: &State, draws: &mut Draws) -> Event {
    match state.decoded() {
        Some(run) if draws.per_mille(600) => wild::near_miss(state.scene(&run), draws),
        Some(run) => wild::event(run.plan, draws),
        None => Event::Settle,
    }
}

/// Makes both calls of an opening and counts them; answers the check.
pub fn opened(state: &mut State, call: &Call, counts: &mut Counts) -> Result<u64, Difference> {
    counts.openings += 1;
    let check = state.both(call)?;
    counts.call(check);
    if let Call::Open(words) = call {
        if words.len() >= SETUP_WORDS {
            counts.turns.opening(&setup_of(words), check);
        }
    }
    Ok(check)
}

/// Makes both calls of an event and counts them; answers the check.
pub fn applied(state: &mut State, call: &Call, counts: &mut Counts) -> Result<u64, Difference> {
    counts.events += 1;
    let (before, words) = (time(state), state.run.front().to_vec());
    let check = state.both(call)?;
    counts.moved(check, time(state).saturating_sub(before));
    counts.traffic.moved(&words, state.run.front());
    Ok(check)
}
