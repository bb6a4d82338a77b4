//! Calls on states of which something was spoilt.

use super::spoil::spoil;
use super::{sound, states};
use crate::calls::{Call, State};
use crate::counts::Counts;
use crate::difference::Difference;
use crate::draws::Draws;
use crate::lent::Lent;
use crate::openings;
use crate::wild;
use crate::words::{numbers_of, Numbers, PER_LEADER, SETUP_WORDS, START, TICK};
use reference::{Event, Run};

/// Spoilt copies of one state.
const COPIES: u64 = 40;
/// Events before the state is spoilt, at most.
const EVENTS: u64 = 40;
/// The most ticks of one call: what is spoilt may still be sound, with a clock
/// limit of up to 60,000,000, and the reference does its ticks one by one.
const MOST_TICKS: u64 = 20_000;
/// The most words of a network, of which check 6 speaks, and one more.
pub const LONGEST: [usize; 2] = [524_288, 524_289];

/// One state and its spoilt copies.
pub fn case(draws: &mut Draws, counts: &mut Counts) -> Result<(), Difference> {
    let Some((good, run)) = states::sound(draws, 600, EVENTS) else {
        return Ok(());
    };
    for _ in 0..COPIES {
        let mut state = good.clone();
        for _ in 0..draws.one_of(&[1, 1, 1, 2, 3]) {
            spoil(&mut state, &run, draws);
        }
        if draws.per_mille(60) {
            let setup = openings::accepted(draws, 30);
            let call = shortened(states::opening(&setup, draws), draws);
            sound::opened(&mut state, &call, counts)?;
        } else {
            let call = Call::Apply(numbers(&good, &run, draws));
            let check = sound::applied(&mut state, &call, counts)?;
            counts.turns.unsound += u64::from(check == 9 && differ_in_turns(&state, &good));
        }
    }
    if draws.per_mille(15) {
        return longest(&good, draws, counts);
    }
    Ok(())
}

/// Whether two states differ in the views per leader and in nothing else.
fn differ_in_turns(state: &State, good: &State) -> bool {
    let words = (state.run.front(), good.run.front());
    let (Some(here), Some(&there)) = (words.0.get(PER_LEADER), words.1.get(PER_LEADER)) else {
        return false;
    };
    let is_other = *here != there;
    let mut state = state.clone();
    state.run.front_mut()[PER_LEADER] = there;
    is_other && state == *good
}

/// Some words of a setup fewer than it has, at times.
fn shortened(call: Call, draws: &mut Draws) -> Call {
    match call {
        Call::Open(mut words) if draws.per_mille(300) => {
            words.truncate(draws.one_of(&[0, 1, START, SETUP_WORDS - 1, SETUP_WORDS]));
            Call::Open(words)
        }
        other => other,
    }
}

/// The numbers of an event that the sound state may accept, or of none.
pub fn numbers(good: &State, run: &Run, draws: &mut Draws) -> Numbers {
    let mut numbers = numbers_of(event(good, run, draws));
    if draws.per_mille(100) {
        alter(&mut numbers, draws);
    }
    if numbers[0] == TICK && numbers[2] > MOST_TICKS {
        numbers[2] = draws.below(MOST_TICKS);
    }
    numbers
}

/// Puts another form or kind, or such as there is none.
pub fn alter(numbers: &mut Numbers, draws: &mut Draws) {
    let value = draws.edge();
    numbers[draws.place(2)] = draws.one_of(&[0, 1, 2, 3, 4, 5, 6, value]);
}

/// An event that would do something, or any.
fn event(good: &State, run: &Run, draws: &mut Draws) -> Event {
    let scene = good.scene(run);
    let held = scene.message(draws.place(scene.messages().len()));
    match (draws.below(6), held) {
        (0 | 1, Some(message)) => Event::Deliver(message),
        (2, _) => Event::Tick(1 + draws.below(12)),
        (3, _) => Event::Settle,
        (4, _) => wild::near_miss(scene, draws),
        _ => wild::event(run.plan, draws),
    }
}

/// Networks about as long as the longest that check 6 passes.
fn longest(good: &State, draws: &mut Draws, counts: &mut Counts) -> Result<(), Difference> {
    for length in LONGEST {
        let mut state = lengthened(good, length, draws);
        sound::applied(&mut state, &Call::Apply([5, 0, 2, 0]), counts)?;
        let setup = openings::accepted(draws, 3);
        let call = states::opening(&setup, draws);
        sound::opened(&mut state, &call, counts)?;
    }
    Ok(())
}

/// A state with a network of so many words, the last of which at times is not
/// 0.
pub fn lengthened(good: &State, length: usize, draws: &mut Draws) -> State {
    let mut words = good.network.front().to_vec();
    words.resize(length, 0);
    if draws.per_mille(200) {
        words[length - 1] = 1;
    }
    State {
        network: Lent::new(&words, &[7]),
        ..good.clone()
    }
}
