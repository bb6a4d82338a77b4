//! Calls of the library: the events of a schedule applied one by one and
//! together, check 9 included on both sides; and one processor's step.

use super::programs::told;
use super::{in_turn, plain, timed, Row};
use crate::draws::Draws;
use crate::schedules;
use crate::trace::Trace;
use crate::words::{numbers_of, setup_words, Numbers, RUN_WORDS, SETUP_WORDS};
use fever::raw;
use reference::{Event, Input, Plan, Processor, Reading, Run, Setup, NETWORK_WORDS, TALLY_WORDS};
use std::hint::black_box;

/// The lines whose events are applied, at least: few, so that most turns are
/// over before another process gets its share of the machine.
const LINES: u64 = 3_000;
/// The events that are applied together by one call.
const TOGETHER: usize = 64;
/// The steps of one processor.
const STEPS: u64 = 30_000;

/// Applying, for some numbers of processors, and stepping.
pub fn rows() -> Vec<Row> {
    let mut rows: Vec<Row> = [4, 16, 64].into_iter().flat_map(applying).collect();
    rows.push(stepping());
    rows
}

/// The events of a schedule, with as many lent words as the program lends. The
/// reference applies them one by one beside either way of the library.
fn applying(n: u64) -> [Row; 2] {
    let trace = schedules::steady(n, LINES);
    let plays = plays(&trace);
    let words: Vec<_> = plays.iter().map(Play::words).collect();
    let (mut ours, mut theirs) = (Words::new(), Words::new());
    let mut run = Run::unopened();
    let mut reference = || {
        timed(|| {
            let (tally, network) = (&mut theirs.tally, &mut theirs.network);
            for Play { setup, events } in black_box(&plays) {
                black_box(plain::open(setup, &mut run, tally, network));
                for &event in events {
                    black_box(plain::apply(&mut run, event, tally, network));
                }
            }
        })
    };
    let one_by_one = || timed(|| ours.one_by_one(black_box(&words)));
    let alone = in_turn(one_by_one, &mut reference).ratio();
    // Answers take the place of the events.
    let together = || {
        let mut words = words.clone();
        timed(|| ours.together(black_box(&mut words)))
    };
    let together = in_turn(together, &mut reference).ratio();
    let what = format!("library, events applied, n = {n}: {}", told(&trace));
    let same = format!(
        "library, the same events together, {TOGETHER} a call, n = {n}; \
         the reference one by one"
    );
    [Row::new(what, alone), Row::new(same, together)]
}

/// A run of a schedule.
struct Play {
    setup: Setup,
    events: Vec<Event>,
}

/// The words of such a run, its setup's and its events'.
type PlayWords = ([u64; SETUP_WORDS], Vec<Numbers>);

impl Play {
    fn words(&self) -> PlayWords {
        let numbers = self.events.iter().copied().map(numbers_of);
        (setup_words(&self.setup), numbers.collect())
    }
}

/// The runs of a schedule, which begins with an opening.
fn plays(trace: &Trace) -> Vec<Play> {
    let mut plays: Vec<Play> = Vec::new();
    for line in trace.text().split(|&byte| byte == b'\n') {
        match (reference::read_line(line), plays.last_mut()) {
            (Reading::Opening(setup), _) => plays.push(Play {
                setup,
                events: Vec::new(),
            }),
            (Reading::Event(event), Some(play)) => play.events.push(event),
            _ => {}
        }
    }
    plays
}

/// What the library is lent.
#[derive(PartialEq, Eq, Debug)]
struct Words {
    run: Vec<u64>,
    tally: Vec<u64>,
    network: Vec<u64>,
}

impl Words {
    fn new() -> Self {
        Self {
            run: vec![0; RUN_WORDS],
            tally: vec![0; TALLY_WORDS],
            network: vec![0; NETWORK_WORDS],
        }
    }

    fn open(&mut self, setup: &[u64]) {
        let (tally, network) = (&mut self.tally, &mut self.network);
        black_box(raw::open(setup, &mut self.run, tally, network));
    }

    fn one_by_one(&mut self, plays: &[PlayWords]) {
        for (setup, events) in plays {
            self.open(setup);
            let (tally, network) = (&mut self.tally, &mut self.network);
            for &[form, kind, view, processor] in events {
                let run = &mut self.run;
                black_box(raw::apply(run, form, kind, view, processor, tally, network));
            }
        }
    }

    fn together(&mut self, plays: &mut [PlayWords]) {
        for (setup, events) in plays {
            self.open(setup);
            let (tally, network) = (&mut self.tally, &mut self.network);
            for events in events.chunks_mut(TOGETHER) {
                let events = events.as_flattened_mut();
                black_box(raw::apply_all(&mut self.run, tally, network, events));
            }
        }
    }
}

/// One processor: ticks mostly, certificates between them.
fn stepping() -> Row {
    const PLAN: Plan = Plan {
        n: 16,
        delta: 2,
        gamma: 8,
        views: 6_000,
        k: Plan::VIEWS_PER_LEADER,
    };
    let mut draws = Draws::new(5);
    let inputs: Vec<(u64, u64)> = (0..STEPS)
        .map(|step| {
            let view = step / PLAN.round() * PLAN.k % PLAN.views;
            (draws.one_of(&[0, 0, 0, 0, 0, 0, 3, 4]), view)
        })
        .collect();
    let proved = || {
        let mut record = [3, 0, 0, 0];
        timed(|| {
            let Plan {
                n,
                delta,
                gamma,
                views,
                k,
            } = black_box(PLAN);
            for &(input, view) in black_box(&inputs) {
                black_box(raw::step(
                    n,
                    delta,
                    gamma,
                    views,
                    k,
                    &mut record,
                    input,
                    view,
                ));
            }
        })
    };
    let reference = || {
        let mut processor = Processor {
            number: 3,
            clock: 0,
            view: 0,
        };
        timed(|| {
            for &(input, view) in black_box(&inputs) {
                let input = match input {
                    0 => Input::Tick,
                    3 => Input::Vc(view),
                    _ => Input::Qc(view),
                };
                black_box(plain::step(black_box(PLAN), &mut processor, input));
            }
        })
    };
    let ratio = in_turn(proved, reference).ratio();
    Row::new(
        format!("library, one processor's step: {STEPS} steps"),
        ratio,
    )
}

#[cfg(test)]
mod tests {
    use super::*;

    #[test]
    fn one_by_one_and_together_leave_the_same() {
        let plays = plays(&schedules::steady(4, 500));
        let mut words: Vec<_> = plays.iter().map(Play::words).collect();
        assert!(words.iter().map(|(_, events)| events.len()).sum::<usize>() > 400);
        let (mut alone, mut together) = (Words::new(), Words::new());
        alone.one_by_one(&words);
        together.together(&mut words);
        assert_eq!(alone, together);
        let answers = words.iter().flat_map(|(_, events)| events);
        let refused = answers.filter(|&&[_, check, ticks, _]| check != 0 && ticks == 0);
        assert!(refused.count() < 50);
    }
}
