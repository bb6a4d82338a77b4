//! Sums as a run may be handed in with: nothing is said of them, and many are
//! about to wrap.

use crate::calls::State;
use crate::draws::Draws;
use crate::words::{put_sums, RUN_WORDS};
use reference::Sums;

/// How far below 2^64 a sum that is to wrap is, at most.
const NEAR: u64 = 1_024;

/// Any sums.
pub fn any(draws: &mut Draws) -> Sums {
    Sums {
        sent: [(); 4].map(|()| one(draws)),
        delivered: [(); 4].map(|()| one(draws)),
        waits: one(draws),
    }
}

/// Any sum: most of them wrap with the next message or some messages later.
pub fn one(draws: &mut Draws) -> u64 {
    let (near, next) = (draws.below(NEAR), draws.below(8));
    let (few, edge, any) = (draws.below(NEAR), draws.edge(), draws.any());
    draws.one_of(&[
        0,
        few,
        edge,
        any,
        u64::MAX,
        u64::MAX,
        u64::MAX - next,
        u64::MAX - next,
        u64::MAX - near,
    ])
}

/// Puts any sums into the run of a state, if all of its words are lent.
pub fn hand_in(state: &mut State, draws: &mut Draws) {
    let words = state.run.front_mut();
    if words.len() >= RUN_WORDS {
        put_sums(&any(draws), words);
    }
}
