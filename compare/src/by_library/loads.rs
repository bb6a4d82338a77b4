//! Loads: begun from any setup and gone on with from any run, in any number of
//! bytes. What the reference makes of one is told again from the sentences
//! about loads.

use super::spoil::{spoil, unmake};
use super::{openings, states, unsound};
use crate::calls::{Call, State};
use crate::counts::Counts;
use crate::difference::Difference;
use crate::draws::Draws;
use crate::lent::Lent;
use crate::openings::{accepted, accepted_of, per_leader, with_turns};
use crate::retell::Told;
use crate::words::{load_of, run_of, setup_of, BYTES, FULL, LOAD_WORDS, SETUP_WORDS, TIME};
use reference::{Plan, Run, Setup};

/// Pieces in which a load is gone on with, at most.
const PIECES: [u64; 5] = [0, 1, 3, 10, 30];
/// Copies of one state from which a load is gone on with.
const COPIES: u64 = 12;
/// Events before the state, at most.
const EVENTS: u64 = 40;
/// The bytes lent, at most: most lines have 9 to 25.
const MOST_BYTES: u64 = 3_000;

/// One load from its opening on, or copies of one state to go on from.
pub fn case(draws: &mut Draws, counts: &mut Counts) -> Result<(), Difference> {
    if draws.per_mille(600) {
        begun(draws, counts)
    } else {
        handed_in(draws, counts)
    }
}

/// A load begun, and gone on with as long as the bytes are too few; at times
/// once more than that.
fn begun(draws: &mut Draws, counts: &mut Counts) -> Result<(), Difference> {
    let (mut state, mut setup) = opening(draws);
    if draws.per_mille(30) {
        setup.truncate(draws.place(SETUP_WORDS + 1));
    }
    let call = Call::Generate(setup);
    let step = draws.edge();
    state.load = load(0, step, draws);
    lend_bytes(&mut state, &call, draws);
    let mut check = both(&mut state, &call, counts)?;
    for _ in 0..draws.one_of(&PIECES) {
        let full = state.load.front().get(FULL) == Some(&1);
        if check != 0 || !(full || draws.per_mille(100)) {
            break;
        }
        lend_bytes(&mut state, &Call::GenerateMore, draws);
        check = both(&mut state, &Call::GenerateMore, counts)?;
    }
    Ok(())
}

/// Lent words, and the words of a setup: most of them open there.
fn opening(draws: &mut Draws) -> (State, Vec<u64>) {
    let (state, setup) = match draws.below(8) {
        0..=2 => states::fresh(draws),
        3 | 4 => with_words(draws, short),
        5 => with_words(draws, crowded),
        _ => openings::any(draws),
    };
    let Call::Open(words) = states::opening(&setup, draws) else {
        return (state, Vec::new());
    };
    (state, words)
}

/// A setup of such a plan, and lent words in which it opens.
fn with_words(draws: &mut Draws, plan: fn(&mut Draws) -> Plan) -> (State, Setup) {
    let plan = with_turns(plan(draws), per_leader(draws));
    let setup = accepted_of(draws, plan);
    (states::lent_to(&setup, draws), setup)
}

/// Few views, of which certificates come to the last before the clocks do.
fn short(draws: &mut Draws) -> Plan {
    let (delta, gamma) = draws.one_of(&[(1, 300), (1, 10_000), (1_000, 10_000)]);
    Plan {
        n: draws.one_of(&[4, 4, 5, 7]),
        delta,
        gamma,
        views: 3,
        k: Plan::VIEWS_PER_LEADER,
    }
}

/// Many processors that send more than is delivered.
fn crowded(draws: &mut Draws) -> Plan {
    let gamma = draws.one_of(&[2, 9, 20, 50]);
    Plan {
        n: draws.one_of(&[10, 16, 33, 64]),
        delta: draws.between(1, gamma / 2),
        gamma,
        views: 30,
        k: Plan::VIEWS_PER_LEADER,
    }
}

/// Loads gone on with from copies of a state that is sound, but for what was
/// spoilt of it; and from words that no opening has touched.
fn handed_in(draws: &mut Draws, counts: &mut Counts) -> Result<(), Difference> {
    let Some((good, run)) = states::sound(draws, 500, EVENTS) else {
        return Ok(());
    };
    for _ in 0..COPIES {
        let mut state = good.clone();
        match draws.below(6) {
            0 => delay(&mut state, &run, draws),
            1 | 2 => {
                for _ in 0..draws.one_of(&[1, 1, 2]) {
                    spoil(&mut state, &run, draws);
                }
            }
            3 if draws.per_mille(300) => state = states::fresh(draws).0,
            3 => unmake(&mut state, draws),
            _ => {}
        }
        let (few, any) = (draws.below(12), draws.edge());
        let step = draws.one_of(&[0, few, any]);
        state.load = load(step, step, draws);
        lend_bytes(&mut state, &Call::GenerateMore, draws);
        both(&mut state, &Call::GenerateMore, counts)?;
    }
    if draws.per_mille(15) {
        return longest(&good, draws, counts);
    }
    Ok(())
}

/// Loads in networks about as long as the longest that check 6 passes.
fn longest(good: &State, draws: &mut Draws, counts: &mut Counts) -> Result<(), Difference> {
    for length in unsound::LONGEST {
        let mut state = unsound::lengthened(good, length, draws);
        let Call::Open(setup) = states::opening(&accepted(draws, 3), draws) else {
            return Ok(());
        };
        for call in [Call::GenerateMore, Call::Generate(setup)] {
            state.load = load(0, 0, draws);
            state.out = Lent::new(&[b'x'; 700], &[b'x'; 9]);
            both(&mut state, &call, counts)?;
        }
    }
    Ok(())
}

/// Brings the time to its limit or beyond, or close to it.
fn delay(state: &mut State, run: &Run, draws: &mut Draws) {
    let limit = run.plan.clock_limit();
    let near = limit - draws.between(1, 5).min(limit - run.time.min(limit));
    let time = draws.one_of(&[near, limit, limit, limit + 1, u64::MAX]);
    if let Some(word) = state.run.front_mut().get_mut(TIME) {
        *word = time;
    }
}

/// The words of a load for a call that goes on from some step, or begins with
/// step 0 and does not read where it stands; what a call writes only may hold
/// anything. At times there are too few words, or more.
fn load(from: u64, step: u64, draws: &mut Draws) -> Lent<u64> {
    let (few, some, any) = (draws.below(12), draws.below(400), draws.edge());
    let left = draws.one_of(&[0, 1, few, some, some, any]);
    let later = |steps| from.saturating_add(steps);
    let (steps, last) = (later(left), later(left.saturating_sub(1)));
    let (passed, soon) = (from.saturating_sub(1 + few), later(few));
    let settle = draws.one_of(&[from, from, later(1), soon, soon, last, steps, passed, any]);
    let (any, edge) = (draws.any(), draws.edge());
    let words = [
        draws.one_of(&[steps, steps, steps, steps, steps, edge]),
        settle,
        draws.one_of(&[any, any, edge]),
        step,
        draws.edge(),
        draws.edge(),
        draws.any(),
        draws.any(),
    ];
    let mut lent = Lent::new(&words[..LOAD_WORDS], &words[LOAD_WORDS..]);
    if draws.per_mille(40) {
        lent.lend(draws.place(words.len() + 1));
    }
    lent
}

/// Lends bytes for a call: so many as come to the end of one of its lines or
/// close to it, or any.
fn lend_bytes(state: &mut State, call: &Call, draws: &mut Draws) {
    let fill = draws.one_of(&[0, b'x', b'\n', b')', 0xFF]);
    let (few, any) = (draws.below(60), draws.below(MOST_BYTES));
    let mut length = draws.one_of(&[few, any, any]) as usize;
    if draws.per_mille(400) {
        let ends = ends_of_lines(state, call, length);
        let end = ends.get(draws.place(ends.len())).map_or(length, |&end| end);
        let (more, less) = (draws.place(24), draws.place(3));
        length = draws.one_of(&[end, end + 8, end + 9, end + more, end.saturating_sub(less)]);
    }
    state.out = Lent::new(&vec![fill; length], &[fill; 9]);
}

/// Where the lines end that the reference writes into so many bytes.
fn ends_of_lines(state: &State, call: &Call, length: usize) -> Vec<usize> {
    let mut state = state.clone();
    state.out = Lent::new(&vec![0; length], &[]);
    state.refer(call);
    let bytes = state.out.front().iter().enumerate();
    let ends = bytes.filter(|(_, &byte)| byte == b'\n');
    ends.map(|(place, _)| place + 1).collect()
}

/// Makes both calls, has what they made told again, and counts it; answers the
/// check.
fn both(state: &mut State, call: &Call, counts: &mut Counts) -> Result<u64, Difference> {
    let before = state.clone();
    let check = state.both(call)?;
    counts.call(check);
    let refused = if let Call::Generate(_) = call {
        counts.openings += 1;
        counts.loads.begun += 1;
        &mut counts.loads.unbegun
    } else {
        counts.traffic.moved(before.run.front(), state.run.front());
        counts.loads.gone_on += 1;
        &mut counts.loads.halted
    };
    if check != 0 {
        refused[check as usize] += 1;
        return Ok(check);
    }
    let (events, ticks) = (counts.loads.events(), counts.loads.ticks());
    let told = retold(&before, call, counts);
    counts.events += counts.loads.events() - events;
    counts.ticks += counts.loads.ticks() - ticks;
    match told.apart(&made(state)) {
        None => Ok(check),
        Some(what) => Err(before.shows(call, &format!("told again, the {what} differ"))),
    }
}

/// What a call that both accepted makes of a state, told again.
fn retold(before: &State, call: &Call, counts: &mut Counts) -> Told {
    let mut told = Told {
        text: Vec::new(),
        ..made(before)
    };
    let room = before.out.front().len();
    match call {
        Call::Generate(setup) => told.begin(&setup_of(setup), room, &mut counts.loads),
        _ => told.go_on(room, &mut counts.loads),
    }
    told
}

/// What a call made of a state.
fn made(state: &State) -> Told {
    let words = state.load.front();
    let written = words[BYTES].min(state.out.front().len() as u64);
    Told {
        run: run_of(state.run.front()),
        tally: state.tally.front().to_vec(),
        network: state.network.front().to_vec(),
        load: load_of(words),
        text: state.out.front()[..written as usize].to_vec(),
        full: words[FULL] != 0,
    }
}

#[cfg(test)]
mod tests {
    use super::*;
    use crate::by_library::tests::counts_of;

    #[test]
    fn loads_meet_all_that_is_said_of_them() {
        let counts = counts_of(case, 41, 2_000);
        assert_eq!(counts.loads.library_lacks(1), None, "{counts}");
    }
}
