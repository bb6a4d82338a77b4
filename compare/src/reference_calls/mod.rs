//! The reference behind calls shaped like the library's: numbers and lent
//! words in, a check number or a length out.

#[cfg(test)]
mod tests;

use crate::words::{
    self, Numbers, HELD, LOAD_WORDS, OPENING, READ_WORDS, RUN_WORDS, SETTLED, SETUP_WORDS, TIME,
    TRAFFIC_WORDS,
};
use reference::{Answer, Form, Input, Packed, Plan, Processor, Reading, Run, Stepped, Wide};
use std::panic::{catch_unwind, AssertUnwindSafe};

/// What a call answers; none if it panics. What it was lent is then not looked
/// at any more.
pub fn guarded<T>(call: impl FnOnce() -> T) -> Option<T> {
    catch_unwind(AssertUnwindSafe(call)).ok()
}

/// The check of an answer, 0 for one accepted whole.
const fn check_of(answer: &Answer) -> u64 {
    match *answer {
        Answer::Done { .. } => 0,
        Answer::Stopped { check, .. } | Answer::Refused(check) => check,
    }
}

/// Opens a setup.
pub fn open(setup: &[u64], run: &mut [u64], tally: &mut [u64], network: &mut [u64]) -> u64 {
    open_in(Packed, setup, run, tally, network)
}

/// Opens a setup with a network in that form.
pub fn open_in(
    form: impl Form,
    setup: &[u64],
    run: &mut [u64],
    tally: &mut [u64],
    network: &mut [u64],
) -> u64 {
    if setup.len() < SETUP_WORDS || run.len() < RUN_WORDS {
        return 1;
    }
    let mut opened = words::run_of(run);
    let setup = words::setup_of(setup);
    let answer = reference::open_in(form, &setup, &mut opened, tally, network);
    if !matches!(answer, Answer::Refused(_)) {
        words::put_run(&opened, run);
    }
    check_of(&answer)
}

/// Applies an event.
pub fn apply(run: &mut [u64], numbers: Numbers, tally: &mut [u64], network: &mut [u64]) -> u64 {
    apply_in(Packed, run, numbers, tally, network)
}

/// Applies an event to a run with a network in that form.
pub fn apply_in(
    form: impl Form,
    run: &mut [u64],
    numbers: Numbers,
    tally: &mut [u64],
    network: &mut [u64],
) -> u64 {
    if run.len() < RUN_WORDS {
        return 1;
    }
    let Some(event) = words::event_of(numbers).filter(|event| event.has_form()) else {
        return 1;
    };
    if run[SETTLED] > 1 {
        return 9;
    }
    let mut moved = words::run_of(run);
    let answer = reference::apply_in(form, &mut moved, event, tally, network);
    if !matches!(answer, Answer::Refused(_)) {
        words::put_run(&moved, run);
    }
    check_of(&answer)
}

/// Applies events one after the other, four words each, and puts form, check,
/// ticks done and messages held in their place; words behind the last whole
/// event stay.
pub fn apply_all(
    run: &mut [u64],
    tally: &mut [u64],
    network: &mut [u64],
    events: &mut [u64],
) -> u64 {
    if run.len() < RUN_WORDS {
        return 1;
    }
    if run[SETTLED] > 1 {
        return 9;
    }
    for words in events.as_chunks_mut().0 {
        let before = run[TIME];
        let check = apply(run, *words, tally, network);
        *words = [words[0], check, run[TIME] - before, run[HELD]];
    }
    0
}

/// Moves one processor: number, clock, view, and how many messages it sends.
pub fn step(plan: Plan, record: &mut [u64], input: u64, view: u64) -> u64 {
    let [number, clock, at, sent, ..] = record else {
        return 1;
    };
    let input = match input {
        0 => Input::Tick,
        3 => Input::Vc(view),
        4 => Input::Qc(view),
        _ => return 1,
    };
    let mut processor = Processor {
        number: *number,
        clock: *clock,
        view: *at,
    };
    let messages = match reference::step(plan, &mut processor, input) {
        Stepped::Refused(check) => return check,
        Stepped::Nothing => 0,
        Stepped::Vote(_) => 1,
        Stepped::ViewAndVote(_) => 2,
    };
    (*number, *clock, *at, *sent) = (processor.number, processor.clock, processor.view, messages);
    0
}

/// Reads a line.
pub fn read_line(line: &[u8], out: &mut [u64]) -> u64 {
    let Some(out) = out.get_mut(..READ_WORDS) else {
        return 1;
    };
    let (numbers, setup) = match reference::read_line(line) {
        Reading::NoForm => return 1,
        Reading::Event(event) => (words::numbers_of(event), [0; SETUP_WORDS]),
        Reading::Opening(setup) => ([OPENING, 0, 0, 0], words::setup_words(&setup)),
    };
    out[..4].copy_from_slice(&numbers);
    out[4..].copy_from_slice(&setup);
    0
}

/// Writes an event, and answers the bytes written or 0.
pub fn write_event(numbers: Numbers, out: &mut [u8]) -> u64 {
    let written = words::event_of(numbers).map(|event| reference::write_event(event, out));
    written.and_then(Result::ok).unwrap_or(0) as u64
}

/// Writes an opening, and answers the bytes written or 0.
pub fn write_setup(setup: &[u64], out: &mut [u8]) -> u64 {
    if setup.len() < SETUP_WORDS {
        return 0;
    }
    let written = reference::write_setup(&words::setup_of(setup), out);
    written.unwrap_or(0) as u64
}

/// Opens a setup and begins its load.
pub fn generate(
    setup: &[u64],
    run: &mut [u64],
    tally: &mut [u64],
    network: &mut [u64],
    load: &mut [u64],
    out: &mut [u8],
) -> u64 {
    if setup.len() < SETUP_WORDS || run.len() < RUN_WORDS || load.len() < LOAD_WORDS {
        return 1;
    }
    let (setup, mut moved) = (words::setup_of(setup), words::run_of(run));
    let mut made = words::load_of(load);
    match reference::generate(&setup, &mut made, &mut moved, tally, network, out) {
        Err(check) => check,
        Ok(piece) => {
            // Without a line the run is not opened, and its words may be those
            // of no run.
            if piece.bytes > 0 {
                words::put_run(&moved, run);
            }
            words::put_load(&made, piece, load);
            0
        }
    }
}

/// Goes on with a load.
pub fn generate_more(
    run: &mut [u64],
    tally: &mut [u64],
    network: &mut [u64],
    load: &mut [u64],
    out: &mut [u8],
) -> u64 {
    if run.len() < RUN_WORDS || load.len() < LOAD_WORDS {
        return 1;
    }
    if run[SETTLED] > 1 {
        return 9;
    }
    let (mut moved, mut made) = (words::run_of(run), words::load_of(load));
    match reference::generate_more(&mut made, &mut moved, tally, network, out) {
        Err(check) => check,
        Ok(piece) => {
            words::put_run(&moved, run);
            words::put_load(&made, piece, load);
            0
        }
    }
}

/// Reports the traffic of a run.
pub fn traffic(run: &[u64], tally: &[u64], network: &[u64], report: &mut [u64]) -> u64 {
    if run.len() < RUN_WORDS || report.len() < TRAFFIC_WORDS {
        return 1;
    }
    if run[SETTLED] > 1 {
        return 9;
    }
    match reference::traffic(&words::run_of(run), tally, network) {
        Err(check) => check,
        Ok(traffic) => {
            report[..TRAFFIC_WORDS].copy_from_slice(&words::traffic_words(&traffic));
            0
        }
    }
}

/// Carries a run over from four words a message to two.
pub fn pack(run: &[u64], tally: &[u64], network: &[u64], target: &mut [u64]) -> u64 {
    carry(run, (Packed, target), |run, target| {
        reference::pack(run, tally, network, target)
    })
}

/// Carries a run over from two words a message to four.
pub fn unpack(run: &[u64], tally: &[u64], network: &[u64], target: &mut [u64]) -> u64 {
    carry(run, (Wide, target), |run, target| {
        reference::unpack(run, tally, network, target)
    })
}

/// Carries a run over to a target in that form. A settled word above 1 makes
/// the run unsound, which is asked behind the target's length.
fn carry(
    run: &[u64],
    (form, target): (impl Form, &mut [u64]),
    carried: impl FnOnce(&Run, &mut [u64]) -> Result<(), u64>,
) -> u64 {
    if run.len() < RUN_WORDS {
        return 1;
    }
    let decoded = words::run_of(run);
    let fits = reference::target_fits(form, &decoded, target.len());
    if fits.is_ok() && run[SETTLED] > 1 {
        return 9;
    }
    fits.and_then(|()| carried(&decoded, target))
        .err()
        .unwrap_or(0)
}
