//! Opening a run: checks 2 to 8, and what an accepted opening leaves.

use crate::check;
use crate::form::{Form, Packed};
use crate::limits;
use crate::run::{Answer, Run, Setup};
use crate::set;
use crate::state::State;
use crate::tally;

/// Opens a run. Refused, nothing changes; accepted, the run is replaced.
///
/// The clocks and views of faulty processors and from n on are "not read"; the
/// run keeps them as 0.
pub fn open(setup: &Setup, run: &mut Run, tally: &mut [u64], network: &mut [u64]) -> Answer {
    open_in(Packed, setup, run, tally, network)
}

/// Opens a run with a network in that form.
pub fn open_in(
    form: impl Form,
    setup: &Setup,
    run: &mut Run,
    tally: &mut [u64],
    network: &mut [u64],
) -> Answer {
    if let Err(check) = allowed(form, setup, tally, network) {
        return Answer::Refused(check);
    }
    start(setup, run);
    // "Opening zeroes the first 4 `views` tally words and the whole network
    // before entering view 0; tally words beyond are untouched."
    tally[..run.plan.views as usize * tally::WORDS].fill(0);
    network.fill(0);
    let correct = run.correct();
    let mut state = State {
        form,
        run,
        tally,
        network,
    };
    for processor in set::members(correct) {
        state.enter(processor, 0);
    }
    Answer::Done {
        ticks: 0,
        held: state.run.held,
    }
}

/// "At opening, time is 0, every correct processor enters view 0 with its
/// start clock, and the network is unsettled (its settling time is kept as
/// 0)": the run before the entering.
fn start(setup: &Setup, run: &mut Run) {
    *run = Run {
        plan: setup.plan,
        faulty: setup.faulty,
        ..Run::unopened()
    };
    for processor in set::members(run.correct()) {
        run.clocks[processor as usize] = setup.clocks[processor as usize];
    }
}

/// The first of checks 2 to 8 that the opening fails.
pub(crate) fn allowed(
    form: impl Form,
    setup: &Setup,
    tally: &[u64],
    network: &[u64],
) -> Result<(), u64> {
    let plan = setup.plan;
    limits::all(form, plan, setup.faulty, tally, network)?;
    let correct = set::below(plan.n) & !setup.faulty;
    let clocks = || set::members(correct).map(|processor| setup.clocks[processor as usize]);
    let highest = clocks().max().unwrap_or(0);
    if highest >= plan.round() {
        return Err(check::START_CLOCK);
    }
    // Of all correct clocks the highest has the fewest others no more than
    // `gamma` below it, so check 8 holds of some clock if of this one.
    let near = clocks().filter(|clock| clock + plan.gamma >= highest);
    if (near.count() as u64) < plan.view_signers() {
        return Err(check::CLOCK_CONDITION);
    }
    Ok(())
}
