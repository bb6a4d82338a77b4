//! Lists of events applied together: one call of the library, and one call of
//! the reference for each event.

use super::spoil::{spoil, unmake};
use super::watched::time;
use super::{sound, states, unsound};
use crate::adversary::Style;
use crate::calls::{Call, State};
use crate::counts::Counts;
use crate::difference::Difference;
use crate::draws::Draws;
use crate::lent::Lent;
use crate::openings;
use crate::shorten::shorten;
use crate::wild;
use crate::words::Numbers;

/// How many events a list has, one of these.
const EVENTS: [u64; 8] = [0, 1, 2, 5, 20, 60, 150, 400];
/// How many one has that is applied to spoilt copies.
const FEW: [u64; 6] = [0, 1, 2, 4, 10, 20];
/// Events before the list, at most.
const BEFORE: u64 = 40;
/// The views of a run, at most: enough for the longest list.
const MOST_VIEWS: u64 = 300;
/// The refusals in a row after which a list ends.
const MOST_REFUSALS: usize = 12;
/// Spoilt copies of one state.
const COPIES: u64 = 12;

/// One state with a list drawn for it; lists on spoilt copies and on words
/// that no opening has touched; at times the first events on the longest
/// networks.
pub fn case(draws: &mut Draws, counts: &mut Counts) -> Result<(), Difference> {
    let good = if draws.per_mille(500) {
        states::arbitrary(draws)
    } else {
        let setup = openings::accepted(draws, MOST_VIEWS);
        let state = states::lent_to(&setup, draws);
        let before = draws.below(BEFORE);
        states::play(state, &setup, draws, before).0
    };
    let list = played(&good, draws);
    applied(lending(good.clone(), &list, draws), counts)?;
    let Some(run) = good.decoded() else {
        return Ok(());
    };
    for _ in 0..COPIES {
        let mut state = good.clone();
        for _ in 0..draws.one_of(&[0, 1, 1, 1, 2, 3]) {
            spoil(&mut state, &run, draws);
        }
        if draws.per_mille(80) {
            unmake(&mut state, draws);
        }
        let count = draws.one_of(&FEW);
        let list: Vec<Numbers> = (0..count)
            .map(|_| unsound::numbers(&good, &run, draws))
            .collect();
        applied(lending(state, &list, draws), counts)?;
    }
    unopened(draws, counts)?;
    if draws.per_mille(30) {
        for length in unsound::LONGEST {
            let state = unsound::lengthened(&good, length, draws);
            let few = &list[..list.len().min(8)];
            applied(lending(state, few, draws), counts)?;
        }
    }
    Ok(())
}

/// A list as a style picks one event after the other, with others between
/// them and such as are none.
fn played(good: &State, draws: &mut Draws) -> Vec<Numbers> {
    let style = Style::of(good, draws);
    let mut state = good.clone();
    let (mut list, mut refusals) = (Vec::new(), 0);
    for _ in 0..draws.one_of(&EVENTS) {
        if refusals > MOST_REFUSALS {
            break;
        }
        let event = sound::event(&state, &style, draws);
        let mut numbers = states::numbers(event, draws);
        if draws.per_mille(20) {
            unsound::alter(&mut numbers, draws);
        }
        let before = time(&state);
        let check = state.refer(&Call::Apply(numbers));
        let goes_on = check == 0 || time(&state) > before;
        refusals = if goes_on { 0 } else { refusals + 1 };
        list.push(numbers);
    }
    list
}

/// A list on words that no opening has touched.
fn unopened(draws: &mut Draws, counts: &mut Counts) -> Result<(), Difference> {
    let (state, setup) = states::fresh(draws);
    let count = draws.one_of(&FEW);
    let list: Vec<Numbers> = (0..count)
        .map(|_| states::numbers(wild::event(setup.plan, draws), draws))
        .collect();
    applied(lending(state, &list, draws), counts)
}

/// A state that lends a list too, with words behind it that are no event, and
/// others that are not lent.
fn lending(state: State, list: &[Numbers], draws: &mut Draws) -> State {
    let mut words = list.as_flattened().to_vec();
    for _ in 0..draws.one_of(&[0, 0, 0, 1, 2, 3]) {
        words.push(draws.edge());
    }
    let behind = [draws.any(), draws.any(), draws.any(), draws.any()];
    State {
        events: Lent::new(&words, &behind),
        ..state
    }
}

/// Makes both calls, and counts the answers.
fn applied(before: State, counts: &mut Counts) -> Result<(), Difference> {
    let mut state = before.clone();
    let check = state
        .both(&Call::ApplyAll)
        .map_err(|difference| shortened(&before, difference))?;
    counts.together(check, state.events.front());
    counts.traffic.moved(before.run.front(), state.run.front());
    Ok(())
}

/// The difference that as few of the events show as are found to.
fn shortened(state: &State, difference: Difference) -> Difference {
    let lent = state.events.front();
    let (list, behind) = lent.as_chunks();
    let others = &state.events.all()[lent.len()..];
    let differs = |list: &[Numbers]| {
        let words = [list.as_flattened(), behind].concat();
        let mut state = State {
            events: Lent::new(&words, others),
            ..state.clone()
        };
        state.both(&Call::ApplyAll).err()
    };
    let few = shorten(list.to_vec(), 600, |list| differs(list).is_some());
    differs(&few).unwrap_or(difference)
}

#[cfg(test)]
mod tests {
    use super::*;
    use crate::by_library::tests::counts_of;

    #[test]
    fn lists_meet_all_that_is_said_of_them() {
        let counts = counts_of(case, 31, 150);
        assert_eq!(counts.met_by_events_below(1), []);
        assert_eq!(counts.stopped_below(1), []);
        assert!(counts.together.met(1), "{counts}");
    }
}
