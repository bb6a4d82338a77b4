//! The reference's functions, each compiled on its own as the library's are.
//! Taken into a measured loop they would be as fast or slow as the compiler
//! finds that loop.

use reference::{Answer, Event, Input, Plan, Processor, Reading, Run, Setup, Stepped, Traffic};

/// Applies an event, check 9 included.
#[inline(never)]
pub fn apply(run: &mut Run, event: Event, tally: &mut [u64], network: &mut [u64]) -> Answer {
    reference::apply(run, event, tally, network)
}

/// Opens a setup.
#[inline(never)]
pub fn open(setup: &Setup, run: &mut Run, tally: &mut [u64], network: &mut [u64]) -> Answer {
    reference::open(setup, run, tally, network)
}

/// Moves one processor.
#[inline(never)]
pub fn step(plan: Plan, processor: &mut Processor, input: Input) -> Stepped {
    reference::step(plan, processor, input)
}

/// Looks for a newline, one byte after the other.
#[inline(never)]
pub fn before_newline(bytes: &[u8]) -> usize {
    reference::before_newline(bytes)
}

/// Reads a line.
#[inline(never)]
pub fn read_line(line: &[u8]) -> Reading {
    reference::read_line(line)
}

/// Writes an event.
#[inline(never)]
pub fn write_event(event: Event, out: &mut [u8]) -> Result<usize, u64> {
    reference::write_event(event, out)
}

/// Writes an opening.
#[inline(never)]
pub fn write_setup(setup: &Setup, out: &mut [u8]) -> Result<usize, u64> {
    reference::write_setup(setup, out)
}

/// Reports the traffic of a run, check 9 included.
#[inline(never)]
pub fn traffic(run: &Run, tally: &[u64], network: &[u64]) -> Result<Traffic, u64> {
    reference::traffic(run, tally, network)
}
