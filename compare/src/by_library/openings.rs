//! Openings of any setup, from any words: what an accepted one zeroes and what
//! it leaves, and that a refused one leaves everything.

use super::{sound, states};
use crate::calls::{Call, State};
use crate::counts::Counts;
use crate::difference::Difference;
use crate::draws::Draws;
use crate::lent::Lent;
use crate::openings;
use crate::words::{RUN_WORDS, SETUP_WORDS};
use reference::Setup;

/// The views that the words lent are enough for, at most.
const MOST_VIEWS: u64 = 30;

/// One opening.
pub fn case(draws: &mut Draws, counts: &mut Counts) -> Result<(), Difference> {
    let (mut state, setup) = any(draws);
    let mut call = states::opening(&setup, draws);
    if let (Call::Open(words), true) = (&mut call, draws.per_mille(20)) {
        words.truncate(draws.place(SETUP_WORDS + 1));
    }
    sound::opened(&mut state, &call, counts)?;
    Ok(())
}

/// A setup that opens or not, and words enough for it or a few too few.
pub fn any(draws: &mut Draws) -> (State, Setup) {
    let setup = match draws.below(4) {
        0 => openings::accepted(draws, MOST_VIEWS),
        1 | 2 => openings::refused(draws, MOST_VIEWS),
        _ => wild(draws),
    };
    (lent_to(&setup, draws), setup)
}

/// A setup that would open, but for one number that may be anything.
fn wild(draws: &mut Draws) -> Setup {
    let mut setup = openings::accepted(draws, MOST_VIEWS);
    let value = draws.edge();
    match draws.below(9) {
        0 => setup.plan.n = value,
        1 => setup.plan.delta = value,
        2 => setup.plan.gamma = value,
        3 => setup.plan.views = value,
        4 => setup.faulty = value,
        5 | 6 => setup.plan.k = value,
        _ => setup.clocks[draws.place(64)] = value,
    }
    setup
}

/// Words enough for a setup, or a few too few.
fn lent_to(setup: &Setup, draws: &mut Draws) -> State {
    let tally = 4 * setup.plan.views.min(MOST_VIEWS) as usize;
    let network = 4 * setup.plan.n.min(64) as usize;
    let some = draws.place(20);
    let few = draws.one_of(&[0, tally.saturating_sub(1), tally.saturating_sub(4)]);
    let (more, beyond) = (draws.one_of(&[0, some]), draws.one_of(&[0, 1, some]));
    let mut state = State {
        run: Lent::untouched(RUN_WORDS, draws),
        tally: Lent::untouched(tally + more, draws),
        network: Lent::untouched(network + beyond, draws),
        ..State::default()
    };
    match draws.below(30) {
        0 => state.tally.lend(few),
        1 => state.network.lend(network.saturating_sub(1)),
        2 => state
            .run
            .lend(draws.one_of(&[0, RUN_WORDS - 1, RUN_WORDS + 1])),
        _ => {}
    }
    state
}
