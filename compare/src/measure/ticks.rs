//! Runs of ticks: quiet ones, busy ones, and how the cost of quiet ones grows.

use super::plain::{apply, open};
use super::{in_turn, timed, Row, Times};
use crate::words::{put_run, RUN_WORDS};
use fever::raw;
use reference::{Event, Plan, Run, Setup};
use std::hint::black_box;

/// An opened run with its lent words, as both sides take it.
#[derive(Clone)]
struct Case {
    run: Run,
    words: Vec<u64>,
    tally: Vec<u64>,
    network: Vec<u64>,
}

/// The rows.
pub fn rows() -> Vec<Row> {
    let mut rows = Vec::new();
    for n in [4, 64] {
        let (short, long) = (stretch(n, 10), stretch(n, 29_990));
        let growth = "quiet ticks without an entry";
        let what = format!("one call of 10 {growth}, n = {n}");
        rows.push(Row::new(what, short.ratio()));
        let what = format!("one call of 29990 {growth}, n = {n}");
        rows.push(Row::new(what, long.ratio()));
        rows.extend(costs("29990 quiet ticks over 10", n, long, short));
    }
    let (short, long) = (rounds(2), rounds(10_000));
    let what = format!(
        "one call of {} ticks, n = 4, {ROUNDS} entries each",
        6 * ROUNDS
    );
    rows.push(Row::new(what, short.ratio()));
    let what = format!(
        "one call of {} ticks, n = 4, {ROUNDS} entries each",
        30_000 * ROUNDS
    );
    rows.push(Row::new(what, long.ratio()));
    let what = format!(
        "{} ticks over {}, as many entries",
        30_000 * ROUNDS,
        6 * ROUNDS
    );
    rows.extend(costs(&what, 4, long, short));
    rows.push(Row::new(
        format!("one call of {BUSY} busy ticks, n = 60, ten processors entering in each"),
        busy().ratio(),
    ));
    rows
}

/// What many ticks cost over what few cost, of either side.
fn costs(what: &str, n: u64, long: Times, short: Times) -> [Row; 2] {
    [
        Row::new(
            format!("    cost of {what}, n = {n}: proved"),
            long.proved_over(short),
        ),
        Row::new(
            format!("    cost of {what}, n = {n}: reference"),
            long.reference_over(short),
        ),
    ]
}

/// Opens a run with these clocks.
fn opened(plan: Plan, clocks: [u64; 64], network: usize) -> Case {
    let setup = Setup {
        plan,
        faulty: 0,
        clocks,
    };
    let mut case = Case {
        run: Run::unopened(),
        words: vec![0; RUN_WORDS],
        tally: vec![0; 4 * plan.views as usize],
        network: vec![0; network],
    };
    open(&setup, &mut case.run, &mut case.tally, &mut case.network);
    put_run(&case.run, &mut case.words);
    case
}

/// One call of so many ticks, from so many copies of a run.
fn ticked(case: &Case, ticks: u64, copies: usize) -> Times {
    let fresh = || vec![case.clone(); copies];
    let proved = || {
        let mut cases = fresh();
        timed(|| {
            for case in &mut cases {
                let (tally, network) = (&mut case.tally, &mut case.network);
                black_box(raw::apply(&mut case.words, 5, 0, ticks, 0, tally, network));
            }
        })
    };
    let reference = || {
        let mut cases = fresh();
        timed(|| {
            for case in &mut cases {
                let (tally, network) = (&mut case.tally, &mut case.network);
                black_box(apply(&mut case.run, Event::Tick(ticks), tally, network));
            }
        })
    };
    in_turn(proved, reference)
}

/// Ticks of a run that has just opened, the first entry being 30,000 ticks
/// away.
fn stretch(n: u64, ticks: u64) -> Times {
    let plan = Plan {
        n,
        delta: 1,
        gamma: 10_000,
        views: 6,
        k: Plan::VIEWS_PER_LEADER,
    };
    ticked(&opened(plan, [0; 64], 2_048), ticks, 8)
}

/// How often every processor enters in a run of rounds.
const ROUNDS: u64 = 333;

/// Ticks over so many rounds of an unsettled run that every processor enters
/// `ROUNDS` views in them, however long a round is.
fn rounds(gamma: u64) -> Times {
    let plan = Plan {
        n: 4,
        delta: 1,
        gamma,
        views: 3 * (ROUNDS + 1),
        k: Plan::VIEWS_PER_LEADER,
    };
    let words = 2 * 8 * (ROUNDS as usize + 1);
    ticked(&opened(plan, [0; 64], words), 3 * gamma * ROUNDS, 1)
}

/// The ticks of a busy run.
const BUSY: u64 = 300;

/// Ticks of a run whose processors are spread over the six ticks of a round.
fn busy() -> Times {
    let plan = Plan {
        n: 60,
        delta: 1,
        gamma: 2,
        views: 180,
        k: Plan::VIEWS_PER_LEADER,
    };
    let mut clocks = [0; 64];
    for (number, clock) in clocks.iter_mut().enumerate() {
        *clock = number as u64 % 6;
    }
    let words = 2 * 120 * (BUSY as usize / 6 + 2);
    ticked(&opened(plan, clocks, words), BUSY, 4)
}

#[cfg(test)]
mod tests {
    use super::*;
    use reference::Answer;

    #[test]
    fn every_run_does_all_of_its_ticks() {
        let all = |case: &mut Case, ticks| {
            let event = Event::Tick(ticks);
            let answer = apply(&mut case.run, event, &mut case.tally, &mut case.network);
            assert!(matches!(answer, Answer::Done { ticks: done, .. } if done == ticks));
        };
        let plan = Plan {
            n: 4,
            delta: 1,
            gamma: 2,
            views: 3 * (ROUNDS + 1),
            k: Plan::VIEWS_PER_LEADER,
        };
        let words = 2 * 8 * (ROUNDS as usize + 1);
        all(&mut opened(plan, [0; 64], words), 6 * ROUNDS);
    }
}
