//! Reading alone and writing alone, over the lines of one schedule.

use super::programs::told;
use super::{in_turn, plain, timed, Row};
use crate::schedules;
use crate::words::{numbers_of, setup_words, READ_WORDS, SETUP_WORDS};
use fever::raw;
use reference::{Event, Reading, Setup};
use std::hint::black_box;

/// The lines read, at least: few, so that most turns are over before another
/// process gets its share of the machine.
const LINES: u64 = 8_000;
/// The openings written; a schedule has few.
const OPENINGS: usize = 2_000;
/// Bytes enough for any line.
const BYTES: usize = 1_500;

/// Reading, writing events, writing openings.
pub fn rows() -> Vec<Row> {
    let trace = schedules::steady(16, LINES);
    let lines: Vec<&[u8]> = trace
        .text()
        .split(|&byte| byte == b'\n')
        .filter(|line| !line.is_empty())
        .collect();
    let (mut events, mut setups) = (Vec::new(), Vec::new());
    for line in &lines {
        match reference::read_line(line) {
            Reading::Event(event) => events.push(event),
            Reading::Opening(setup) => setups.push(setup),
            Reading::NoForm => {}
        }
    }
    let read = reading(&lines);
    let opening: Vec<&[u8]> = lines
        .iter()
        .copied()
        .filter(|line| line.starts_with(b"(open"))
        .cycle()
        .take(OPENINGS)
        .collect();
    let setups: Vec<Setup> = setups.into_iter().cycle().take(OPENINGS).collect();
    vec![
        Row::new(format!("reading alone: {}", told(&trace)), read),
        Row::new(
            format!("reading openings alone: {OPENINGS} of 16 clocks"),
            reading(&opening),
        ),
        Row::new(
            format!("writing events alone: {}", events.len()),
            writing_events(&events),
        ),
        Row::new(
            format!("writing openings alone: {OPENINGS} of 16 clocks"),
            writing_setups(&setups),
        ),
    ]
}

fn reading(lines: &[&[u8]]) -> f64 {
    let mut words = [0; READ_WORDS];
    let proved = || {
        timed(|| {
            for line in lines {
                black_box(raw::read_line(black_box(line), &mut words));
            }
        })
    };
    let reference = || {
        timed(|| {
            for line in lines {
                black_box(plain::read_line(black_box(line)));
            }
        })
    };
    in_turn(proved, reference).ratio()
}

fn writing_events(events: &[Event]) -> f64 {
    let (mut out, mut other) = ([0; BYTES], [0; BYTES]);
    let numbers: Vec<[u64; 4]> = events.iter().copied().map(numbers_of).collect();
    let proved = || {
        timed(|| {
            for &[form, kind, view, processor] in black_box(&numbers) {
                black_box(raw::write_event(form, kind, view, processor, &mut out));
            }
        })
    };
    let reference = || {
        timed(|| {
            for &event in black_box(events) {
                let _ = black_box(plain::write_event(event, &mut other));
            }
        })
    };
    in_turn(proved, reference).ratio()
}

fn writing_setups(setups: &[Setup]) -> f64 {
    let (mut out, mut other) = ([0; BYTES], [0; BYTES]);
    let words: Vec<[u64; SETUP_WORDS]> = setups.iter().map(setup_words).collect();
    let proved = || {
        timed(|| {
            for setup in black_box(&words) {
                black_box(raw::write_setup(setup, &mut out));
            }
        })
    };
    let reference = || {
        timed(|| {
            for setup in black_box(setups) {
                let _ = black_box(plain::write_setup(setup, &mut other));
            }
        })
    };
    in_turn(proved, reference).ratio()
}
