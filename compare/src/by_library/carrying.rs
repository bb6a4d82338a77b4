//! Runs carried over from one form of network to the other: sound ones and
//! spoilt ones, into targets of any length that hold anything. What is refused
//! and what is written is told again, and what was written is carried back.

use super::spoil::{spoil_in, unmake};
use super::{states, unsound};
use crate::calls::{Call, State};
use crate::carry_counts::{Refusal, Target};
use crate::clauses::broken;
use crate::counts::Counts;
use crate::difference::Difference;
use crate::draws::Draws;
use crate::lent::Lent;
use crate::openings::{accepted_of, per_leader, with_turns};
use crate::stored::Width;
use crate::words::{HELD, RUN_WORDS};
use reference::{Plan, Run};

/// Copies of one state that are carried over.
const COPIES: u64 = 30;
/// Events before the state, at most.
const EVENTS: u64 = 60;
/// The views of a run with high ones.
const HIGH_VIEWS: [u64; 3] = [4_108, 5_001, 6_000];
/// The most words that a target has, and one more.
const LONGEST: [usize; 2] = [524_288, 524_289];

/// The call that carries over from a form.
pub const fn carrying(from: Width) -> Call {
    match from {
        Width::Two => Call::Unpack,
        Width::Four => Call::Pack,
    }
}

/// One state and its copies, most of them spoilt; words that no opening has
/// touched; at times the longest networks and targets.
pub fn case(draws: &mut Draws, counts: &mut Counts) -> Result<(), Difference> {
    let Some((good, run)) = sound(draws) else {
        return Ok(());
    };
    let from = draws.one_of(&[Width::Two, Width::Four]);
    let good = in_form(from, good, &run, draws);
    for _ in 0..COPIES {
        let mut state = good.clone();
        for _ in 0..draws.one_of(&[0, 0, 1, 1, 1, 1, 2, 3]) {
            spoil_in(from, &mut state, &run, draws);
        }
        if draws.per_mille(80) {
            unmake(&mut state, draws);
        }
        lend_target(from, &mut state, draws);
        carried(from, &mut state, draws, counts)?;
    }
    let mut fresh = states::fresh(draws).0;
    lend_target(from, &mut fresh, draws);
    carried(from, &mut fresh, draws, counts)?;
    if draws.per_mille(40) {
        return longest(from, &good, draws, counts);
    }
    Ok(())
}

/// A sound state and its run, some of them with messages for high views.
fn sound(draws: &mut Draws) -> Option<(State, Run)> {
    if draws.per_mille(900) {
        return states::sound(draws, 600, EVENTS);
    }
    let plan = Plan {
        n: draws.one_of(&[4, 7, 33, 64]),
        delta: 1,
        gamma: draws.one_of(&[2, 9, 10_000]),
        views: draws.one_of(&HIGH_VIEWS),
        k: Plan::VIEWS_PER_LEADER,
    };
    let plan = with_turns(plan, per_leader(draws));
    let setup = accepted_of(draws, plan);
    let state = states::lent_to(&setup, draws);
    let state = states::arbitrary_of(state, &setup, draws);
    let run = state.decoded()?;
    Some((state, run))
}

/// A state whose network is put into a form, in any number of words that it
/// takes.
fn in_form(form: Width, mut state: State, run: &Run, draws: &mut Draws) -> State {
    if let Width::Four = form {
        let least = (form.least() * run.plan.n) as usize;
        let used = form.words() * run.held as usize;
        let some = draws.place(40);
        let length = least.max(used) + draws.one_of(&[0, 0, 1, 2, 3, 4, 7, some]);
        let messages = Width::Two.messages(state.network.front(), run.held);
        let words = form.network(messages, length);
        let behind = [0; 5].map(|_: u64| draws.any());
        state.network = Lent::new(&words, &behind);
    }
    state
}

/// Lends a target that holds anything: enough for what the run says that it
/// holds, just so or with words to spare, or a few too few.
fn lend_target(from: Width, state: &mut State, draws: &mut Draws) {
    let to = from.other();
    let word = |place: usize| state.run.all()[place];
    // A run of more is refused whatever the target's length.
    let least = (word(0).min(200) * to.least()) as usize;
    let exact = word(HELD).min(3_000) as usize * to.words();
    let enough = least.max(exact);
    let (some, any) = (draws.place(40), draws.place(enough + 40));
    let few = draws.one_of(&[1, 1, 1, 2, 3]);
    let length = draws.one_of(&[
        enough,
        enough,
        enough + 1,
        enough + 3,
        enough + some,
        enough + some,
        least,
        exact,
        enough.saturating_sub(few),
        least.saturating_sub(few),
        exact.saturating_sub(few),
        any,
        0,
    ]);
    state.target = Lent::untouched(length, draws);
}

/// Networks and targets about as long as the longest that check 6 passes.
fn longest(
    from: Width,
    good: &State,
    draws: &mut Draws,
    counts: &mut Counts,
) -> Result<(), Difference> {
    for length in LONGEST {
        let mut state = unsound::lengthened(good, length, draws);
        lend_target(from, &mut state, draws);
        carried(from, &mut state, draws, counts)?;
        let mut state = good.clone();
        state.target = Lent::untouched(length, draws);
        carried(from, &mut state, draws, counts)?;
    }
    Ok(())
}

/// Makes both calls, tells again what they answered and wrote, counts them, and
/// goes back where they were accepted; answers the check.
pub fn carried(
    from: Width,
    state: &mut State,
    draws: &mut Draws,
    counts: &mut Counts,
) -> Result<u64, Difference> {
    let call = carrying(from);
    let refusal = refusal(from, state);
    let before = state.clone();
    let check = state.both(&call)?;
    counts.call(check);
    let told = refusal.as_ref().map_or(0, Refusal::check);
    if check != told {
        let told = format!("answered {check}, and {told} when told again: {refusal:?}");
        return Err(before.shows(&call, &told));
    }
    let ways = counts.carried.way_from(from);
    ways.calls += 1;
    if let Some(refusal) = refusal {
        ways.refuse(&refusal, from, state);
        return Ok(check);
    }
    holds(from, state)?;
    ways.carry(from, state);
    back(from, state, draws)?;
    counts.carried.way_from(from.other()).back += 1;
    Ok(check)
}

/// What carrying a state over is refused for, if it is.
fn refusal(from: Width, state: &State) -> Option<Refusal> {
    let run = state.run.front();
    if run.len() < RUN_WORDS {
        return Some(Refusal::FewRunWords);
    }
    let clauses = broken(from, run, state.tally.front().len(), state.network.front());
    let to = from.other();
    let length = state.target.front().len() as u128;
    let targets: Vec<Target> = [
        (
            Target::Short,
            length < u128::from(to.least()) * u128::from(run[0]),
        ),
        (Target::Long, length > 524_288),
        (
            Target::Full,
            length / (to.words() as u128) < u128::from(run[HELD]),
        ),
    ]
    .into_iter()
    .filter_map(|(target, refused)| refused.then_some(target))
    .collect();
    if !targets.is_empty() {
        let unsound = !clauses.is_empty();
        return Some(Refusal::Target(targets, unsound));
    }
    (!clauses.is_empty()).then_some(Refusal::Unsound(clauses))
}

/// Whether the target holds the network's messages in their order, and zeros
/// behind them.
fn holds(from: Width, state: &State) -> Result<(), Difference> {
    let to = from.other();
    let held = state.run.front()[HELD];
    let (network, target) = (state.network.front(), state.target.front());
    let expected = to.network(from.messages(network, held), target.len());
    if target == expected {
        return Ok(());
    }
    let told = "the target does not hold the network's messages, told again";
    Err(state.shows(&carrying(from), told))
}

/// Carries a run back that was carried over, into as many words as it came
/// from: they are the same again.
fn back(from: Width, state: &State, draws: &mut Draws) -> Result<(), Difference> {
    let behind = [draws.any(), 0, draws.any()];
    let mut carried = State {
        network: Lent::new(state.target.front(), &behind),
        target: Lent::untouched(state.network.front().len(), draws),
        ..state.clone()
    };
    let call = carrying(from.other());
    let check = carried.both(&call)?;
    let same = carried.target.front() == state.network.front();
    if check == 0 && same {
        return Ok(());
    }
    let told = format!("there and back answers {check}, and the same words are there: {same}");
    Err(carried.shows(&call, &told))
}

#[cfg(test)]
mod tests {
    use super::*;
    use crate::by_library::tests::counts_of;

    #[test]
    fn runs_are_carried_over_and_refused_for_every_reason() {
        let counts = counts_of(case, 71, 1_200);
        assert_eq!(counts.carried.calls_lack(3), None, "{counts}");
    }
}
