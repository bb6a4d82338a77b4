//! The comparison through the programs that read schedules: whole schedules as
//! text, printouts and reports byte for byte, demand 3 and the history of the
//! same events.

use crate::counts::Counts;
use crate::damage;
use crate::difference::{first_line, Difference};
use crate::draws::Draws;
use crate::openings;
use crate::pending;
use crate::readers::{compare_one, compare_report, shown_by, Readers};
use crate::report;
use crate::schedules;
use crate::search_counts::schedules::MOST_PIECE;
use crate::trace::{Complaint, Trace};
use std::mem;

/// Drawn schedules of one round, besides those of other sorts.
const DRAWN: u64 = 24;
/// How many in a thousand schedules end their input. Clocks and views are
/// printed at the end of an input only, so many of them are compared.
const ENDING: u64 = 400;
/// Inputs of one round that open nothing.
const UNOPENED: u64 = 2;
/// The sizes of the pieces in which inputs are handed over.
const PIECES: [usize; 5] = [1 << 20, 65_536, 65_535, 4_801, 997];

/// Compares so many rounds of inputs, each of one or more schedules. A later
/// opening begins a new run, so one process answers all of an input.
pub fn compare(readers: Readers, seed: u64, rounds: u64) -> Result<Counts, Difference> {
    let mut draws = Draws::new(seed);
    let mut counts = Counts::default();
    for round in 0..rounds {
        let mut drawn = draws.branch();
        for trace in inputs(&mut drawn, round) {
            let piece = drawn.one_of(&PIECES);
            pending::leave("last.schedule", trace.text());
            compare_both(readers, &trace, piece)?;
            counts.add(trace.counts());
            let openings = trace.counts().lists;
            counts.traffic.printed(trace.traffic().as_ref(), openings);
        }
    }
    Ok(counts)
}

/// Compares one input, handed over in pieces of each size and in small ones,
/// and watches it.
pub fn replay(readers: Readers, input: &[u8]) -> Result<(), Difference> {
    let trace = Trace::of(input);
    PIECES
        .into_iter()
        .chain(1..=MOST_PIECE)
        .try_for_each(|piece| compare_both(readers, &trace, piece))
}

/// Compares the printouts and the reports of an input, and the report with what
/// its history tells.
pub fn compare_both(readers: Readers, trace: &Trace, piece: usize) -> Result<(), Difference> {
    uncomplained(trace)?;
    compare_one(readers.simulator, trace.text(), piece)?;
    let report = compare_report(readers.reporter, trace.text(), piece)?;
    told_by_history(trace, &report)
}

/// Whether a report has the lines that the history of its input tells.
fn told_by_history(trace: &Trace, report: &[u8]) -> Result<(), Difference> {
    let told = trace.traffic().as_ref().map(report::lines);
    match first_line(report, "history", told.unwrap_or_default().as_bytes()) {
        None => Ok(()),
        Some((line, apart)) => {
            let what = format!("a report told again differs: line {}\n{apart}", line + 1);
            Err(shown_by(trace.text(), what))
        }
    }
}

/// The inputs of one round.
fn inputs(draws: &mut Draws, round: u64) -> Vec<Trace> {
    let mut inputs = Vec::new();
    let mut trace = Trace::new();
    for _ in 0..UNOPENED {
        for _ in 0..draws.below(12) {
            schedules::disturb(&mut trace, draws);
        }
        end(&mut trace, draws);
        inputs.push(mem::take(&mut trace));
    }
    // Before any opening, every event is refused by 9.
    for _ in 0..draws.below(4) {
        schedules::disturb(&mut trace, draws);
    }
    for _ in 0..DRAWN {
        schedules::drawn(&mut trace, draws);
        end_at_times(&mut inputs, &mut trace, draws);
    }
    // Each number of views per leader in turn, two of them a round.
    for k in [2 + round % 7, 2 + (round + 3) % 7] {
        let n = draws.one_of(&[4, 4, 5, 6, 7, 8, 10, 13]);
        schedules::patient(&mut trace, draws, n, k);
        end_at_times(&mut inputs, &mut trace, draws);
    }
    if round.is_multiple_of(4) {
        schedules::crowded(&mut trace, draws);
        end_at_times(&mut inputs, &mut trace, draws);
    }
    if round.is_multiple_of(10) {
        let (n, k) = (draws.one_of(&[16, 31, 64]), openings::per_leader(draws));
        schedules::patient(&mut trace, draws, n, k);
    }
    end(&mut trace, draws);
    inputs.push(trace);
    inputs
}

/// Ends an input here and begins another, at times.
fn end_at_times(inputs: &mut Vec<Trace>, trace: &mut Trace, draws: &mut Draws) {
    if draws.per_mille(ENDING) {
        end(trace, draws);
        inputs.push(mem::take(trace));
    }
}

/// Half of the inputs end with bytes that no newline follows.
fn end(trace: &mut Trace, draws: &mut Draws) {
    let bytes = match draws.below(8) {
        0 => b"(settle)".to_vec(),
        1 => b"(tick 1)".to_vec(),
        2 => damage::noise(draws),
        3 => damage::long(draws),
        _ => Vec::new(),
    };
    trace.end(&bytes);
}

/// The difference that a trace's complaint is, if it has one.
fn uncomplained(trace: &Trace) -> Result<(), Difference> {
    let Some(Complaint { shown_by, what }) = trace.complaint() else {
        return Ok(());
    };
    // From the opening on, if that shows it by itself.
    let mut contents = &trace.text()[shown_by.clone()];
    if Trace::of(contents).complaint().is_none() {
        contents = &trace.text()[..shown_by.end];
    }
    Err(Difference {
        what: what.clone(),
        name: "complaint.schedule".to_owned(),
        contents: contents.to_vec(),
    })
}

#[cfg(test)]
mod tests {
    use super::*;

    #[test]
    fn a_report_of_another_history_is_found_out() {
        let trace = Trace::of(b"(open 4 2 4 6 0 (0 0 0 0))\n(tick 1)\n(deliver (vote 0 1))\n");
        let good = trace.traffic().expect("a run is open");
        let judged = |report: &str| told_by_history(&trace, report.as_bytes());
        assert!(judged(&report::lines(&good)).is_ok());
        let mut other = good;
        (other.sums.sent[2], other.held[2]) = (1, 1);
        let difference = judged(&report::lines(&other)).expect_err("none was sent");
        let told = "line 3\nproved: (traffic vc 1 0 1)\nhistory: (traffic vc 0 0 0)";
        assert!(difference.what.contains(told), "{}", difference.what);
        assert_eq!(difference.contents, trace.text());
        assert!(judged("").is_err());
        assert!(told_by_history(&Trace::of(b"(settle)\n"), b"").is_ok());
    }

    #[test]
    fn inputs_without_a_run_are_among_them() {
        let inputs = (0..10).flat_map(|seed| inputs(&mut Draws::new(seed), 1));
        let (open, closed): (Vec<Trace>, Vec<Trace>) = inputs.partition(Trace::opened);
        assert!(open.len() > 50 && closed.len() > 10);
        assert!(closed.iter().any(|trace| trace.counts().openings > 0));
    }

    #[test]
    fn the_same_seed_makes_the_same_inputs() {
        let texts = || -> Vec<Vec<u8>> {
            let inputs = inputs(&mut Draws::new(3), 0);
            inputs.iter().map(|input| input.text().to_vec()).collect()
        };
        assert!(texts().len() > 1 && texts() == texts());
    }
}
