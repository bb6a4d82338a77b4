//! Reports of a run's traffic, check 9 included on both sides.

use super::{in_turn, plain, timed, Row};
use crate::text::Heading;
use crate::trace::Trace;
use crate::words::{put_run, RUN_WORDS, TRAFFIC_WORDS};
use fever::raw;
use reference::{Event, Message, Plan, Setup};
use std::hint::black_box;

/// The reports of one turn.
const REPORTS: usize = 200;

/// One row per number of processors.
pub fn rows() -> Vec<Row> {
    [4, 64].into_iter().map(row).collect()
}

/// A run whose first view certificate has just been formed: it is in flight,
/// and so are the votes and the other view messages.
fn run(n: u64) -> Trace {
    let plan = Plan {
        n,
        delta: 4,
        gamma: 16,
        views: 900,
        k: Plan::VIEWS_PER_LEADER,
    };
    let mut trace = Trace::new();
    let setup = Setup {
        plan,
        faulty: 0,
        clocks: [0; 64],
    };
    trace.opening(Heading::Six, &setup);
    trace.event(Event::Tick(2));
    for signer in 0..plan.view_signers() {
        trace.event(Event::Deliver(Message::View(0, signer)));
    }
    trace
}

/// Reports of one run, in as many lent words as the program lends.
fn row(n: u64) -> Row {
    let trace = run(n);
    let scene = trace.scene();
    let (run, tally, network) = (scene.run, scene.tally, scene.network);
    let mut words = [0; RUN_WORDS];
    put_run(run, &mut words);
    let mut report = [0; TRAFFIC_WORDS];
    let proved = || {
        timed(|| {
            for _ in 0..REPORTS {
                black_box(raw::traffic(black_box(&words), tally, network, &mut report));
            }
        })
    };
    let reference = || {
        timed(|| {
            for _ in 0..REPORTS {
                let _ = black_box(plain::traffic(black_box(run), tally, network));
            }
        })
    };
    let ratio = in_turn(proved, reference).ratio();
    let what = format!(
        "library, reports of traffic, n = {n}: {REPORTS} reports, {} messages in flight",
        run.held
    );
    Row::new(what, ratio)
}

#[cfg(test)]
mod tests {
    use super::*;
    use crate::words::traffic_words;

    #[test]
    fn both_report_a_run_with_messages_in_flight() {
        for (n, held, waits) in [(4, 10, 4), (64, 170, 44)] {
            let trace = run(n);
            let scene = trace.scene();
            let mut words = [0; RUN_WORDS];
            put_run(scene.run, &mut words);
            let mut report = [0; TRAFFIC_WORDS];
            let check = raw::traffic(&words, scene.tally, scene.network, &mut report);
            let expected = plain::traffic(scene.run, scene.tally, scene.network);
            assert_eq!(
                (check, expected.map(|told| traffic_words(&told))),
                (0, Ok(report))
            );
            assert_eq!((scene.run.held, scene.run.sums.waits), (held, waits));
        }
    }
}
