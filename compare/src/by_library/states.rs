//! States to call from: freshly opened, played on for a while, or put together
//! so that check 9 passes them though no list of events leads there.

use super::sums;
use crate::adversary::Style;
use crate::calls::{Call, State};
use crate::draws::Draws;
use crate::lent::Lent;
use crate::openings;
use crate::stored::Width;
use crate::words::{self, put_run, setup_words, Numbers, RUN_WORDS};
use reference::{is_sound, Event, Plan, Run, Setup};

/// The most views of a run here, so that every word can be compared often.
const MOST_VIEWS: u64 = 30;

/// A setup, and lent words in which it opens: often just enough of them, and
/// often a number that whole messages do not fill.
pub fn fresh(draws: &mut Draws) -> (State, Setup) {
    let setup = openings::accepted(draws, MOST_VIEWS);
    let state = lent_to(&setup, draws);
    (state, setup)
}

/// A setup whose run lasts until demand 3 is due whole, with any number of
/// views per leader and, most often, as short a slot as they allow; and lent
/// words in which its messages have room.
pub fn lasting(draws: &mut Draws) -> (State, Setup) {
    let (k, delta) = (draws.between(2, 8), draws.between(1, 2));
    let plan = Plan {
        n: draws.one_of(&[4, 4, 5]),
        delta,
        gamma: 2 * delta + draws.one_of(&[0, 0, 1]),
        views: 16 * k,
        k,
    };
    let setup = openings::accepted_of(draws, openings::with_turns(plan, k));
    let (tally, network) = (4 * setup.plan.views, 60 * setup.plan.n);
    let state = State {
        run: Lent::untouched(RUN_WORDS, draws),
        tally: Lent::untouched(tally as usize, draws),
        network: Lent::untouched(network as usize, draws),
        ..State::default()
    };
    (state, setup)
}

/// Lent words in which a setup opens.
pub fn lent_to(setup: &Setup, draws: &mut Draws) -> State {
    let Plan { n, views, .. } = setup.plan;
    let tally = 4 * views + draws.one_of(&[0, 0, 0, 1, 3, 4, 9]);
    let some = draws.below(32) * n;
    let beyond = draws.one_of(&[0, 0, 0, 1, 1, 2, 3, 4, 5, 2 * n, 2 * n + 1, 8 * n, some]);
    State {
        run: Lent::untouched(RUN_WORDS, draws),
        tally: Lent::untouched(tally as usize, draws),
        network: Lent::untouched((4 * n + beyond) as usize, draws),
        ..State::default()
    }
}

/// The call that opens a setup; words behind a setup's are not read.
pub fn opening(setup: &Setup, draws: &mut Draws) -> Call {
    let mut words = setup_words(setup).to_vec();
    if draws.per_mille(100) {
        words.extend([draws.any(), draws.any()]);
    }
    Call::Open(words)
}

/// The call that applies an event.
pub fn applying(event: Event, draws: &mut Draws) -> Call {
    Call::Apply(numbers(event, draws))
}

/// The numbers of an event. Those that a form does not have are not read.
pub fn numbers(event: Event, draws: &mut Draws) -> Numbers {
    let mut numbers = words::numbers_of(event);
    if draws.per_mille(100) {
        match event {
            Event::Settle => numbers[1..].fill(draws.edge()),
            Event::Tick(_) => (numbers[1], numbers[3]) = (draws.edge(), draws.edge()),
            _ => {}
        }
    }
    numbers
}

/// An opened state after so many events in a drawn style, by the reference.
pub fn played(draws: &mut Draws, events: u64) -> (State, Style) {
    let (state, setup) = fresh(draws);
    play(state, &setup, draws, events)
}

/// A sound state and its run: so many in a thousand are played, with fewer
/// events than that, the others arbitrary.
pub fn sound(draws: &mut Draws, per_mille: u64, events: u64) -> Option<(State, Run)> {
    let state = if draws.per_mille(per_mille) {
        let events = draws.below(events);
        played(draws, events).0
    } else {
        arbitrary(draws)
    };
    let run = state.decoded()?;
    Some((state, run))
}

/// Opens a setup and goes on for so many events in a drawn style, at times from
/// sums that are not the opening's.
pub fn play(mut state: State, setup: &Setup, draws: &mut Draws, events: u64) -> (State, Style) {
    let call = opening(setup, draws);
    state.refer(&call);
    if draws.per_mille(300) {
        sums::hand_in(&mut state, draws);
    }
    let style = Style::drawn(draws, setup.plan.n, setup.faulty);
    for _ in 0..events {
        let event = next(&state, &style, draws);
        let call = applying(event, draws);
        state.refer(&call);
    }
    (state, style)
}

/// The next event of a style.
pub fn next(state: &State, style: &Style, draws: &mut Draws) -> Event {
    match state.decoded() {
        Some(run) => style.next(state.scene(&run), draws),
        None => Event::Tick(1),
    }
}

/// A state that check 9 passes, with clocks, times, messages, tally and sums as
/// no list of events need leave them: sending times in any order, messages of
/// no one's sending, sets of signers with any bits.
pub fn arbitrary(draws: &mut Draws) -> State {
    let (state, setup) = fresh(draws);
    arbitrary_of(state, &setup, draws)
}

/// The same, of this setup, in words in which it opens.
pub fn arbitrary_of(mut state: State, setup: &Setup, draws: &mut Draws) -> State {
    let plan = setup.plan;
    let mut run = Run {
        plan,
        faulty: setup.faulty,
        sums: sums::any(draws),
        ..Run::unopened()
    };
    place(&mut run, draws);
    let last = plan.clock_limit() - 1;
    let near = last - draws.below(30).min(last);
    let within = draws.below(last + 1);
    run.time = draws.one_of(&[0, within, within, near, last]);
    run.settled = draws.per_mille(600);
    if run.settled {
        let since = draws.below(3 * plan.delta).min(run.time);
        run.gst = draws.one_of(&[0, run.time, run.time - since]);
    }
    fill_tally(&mut state, plan, draws);
    fill_network(&mut state, &mut run, draws);
    put_run(&run, state.run.front_mut());
    debug_assert!(is_sound(&run, state.tally.front(), state.network.front()));
    state
}

/// Correct processors anywhere that their views allow, most of them near an
/// edge; the others hold anything.
fn place(run: &mut Run, draws: &mut Draws) {
    let plan = run.plan;
    let common = draws.below(plan.views);
    for number in 0..64 {
        if run.correct() >> number & 1 == 0 {
            run.clocks[number] = draws.edge();
            run.views[number] = draws.edge();
            continue;
        }
        let own = draws.below(plan.views);
        let view = draws.one_of(&[common, common, own]);
        let least = plan.clock_time(view);
        let most = plan.clock_time(plan.next_initial(view)) - 1;
        let inside = draws.between(least, most);
        let near = most - draws.below(4).min(most - least);
        run.views[number] = view;
        run.clocks[number] = draws.one_of(&[least, most, near, inside]);
    }
}

/// Sets of any processors and marks of any bits.
fn fill_tally(state: &mut State, plan: Plan, draws: &mut Draws) {
    let below_n = u64::MAX >> (64 - plan.n);
    for word in state.tally.front_mut() {
        let (one, other) = (draws.any(), draws.any());
        *word = draws.one_of(&[0, 0, one, one & below_n, one & other & below_n, one % 4]);
    }
}

/// Messages to correct processors, sent at any time up to now.
fn fill_network(state: &mut State, run: &mut Run, draws: &mut Draws) {
    let plan = run.plan;
    let words = state.network.front_mut();
    words.fill(0);
    let fit = words.len() as u64 / 2;
    let some = draws.below(fit + 1);
    let few = draws.below(4);
    let held = draws.one_of(&[0, few, some, fit]);
    let recent = draws.per_mille(700);
    for words in words.chunks_exact_mut(2).take(held as usize) {
        let span = if recent { 2 * plan.delta } else { run.time };
        let sent = run.time - draws.below(span + 1).min(run.time);
        let (kind, view) = (draws.between(1, 4), draws.below(plan.views));
        let processor = draws.below(plan.n);
        let to = if kind < 3 { plan.lead(view) } else { processor };
        // With every leader of these few views faulty there may be none to
        // send to, but a correct processor can always be sent a certificate.
        let message = if run.correct() >> to & 1 == 1 {
            [kind, view, processor, sent]
        } else {
            let correct = u64::from(run.correct().trailing_zeros());
            [draws.between(3, 4), view, correct, sent]
        };
        Width::Two.put(message, words);
    }
    run.held = held;
}

#[cfg(test)]
mod tests {
    use super::*;

    #[test]
    fn arbitrary_states_are_sound() {
        let mut draws = Draws::new(21);
        for _ in 0..500 {
            let state = arbitrary(&mut draws);
            let run = state.decoded().expect("all words");
            assert!(is_sound(&run, state.tally.front(), state.network.front()));
        }
    }

    #[test]
    fn played_states_are_sound() {
        let mut draws = Draws::new(22);
        for events in 0..100 {
            let (state, _) = played(&mut draws, events);
            let run = state.decoded().expect("all words");
            assert!(is_sound(&run, state.tally.front(), state.network.front()));
        }
    }
}
