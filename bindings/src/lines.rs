//! Lines of a schedule.

use crate::events::Event;
use crate::raw;
use crate::runs::Setup;

/// What a line is the form of.
// A line is read one at a time and kept nowhere, so the larger case costs nothing.
#[allow(clippy::large_enum_variant)]
#[derive(Clone, Debug, PartialEq, Eq, Hash)]
pub enum Line {
    /// An event.
    Event(Event),
    /// An opening; its clocks from n on are 0.
    Open(Setup),
}

/// Reads a line, without its newline; none where it is none of the forms, which is check 1. An opening without the views per leader
/// has [`Plan::VIEWS_PER_LEADER`](crate::Plan::VIEWS_PER_LEADER).
pub fn read_line(line: &[u8]) -> Option<Line> {
    let mut words = [0; raw::READING_WORDS];
    if raw::read_line(line, &mut words) != 0 {
        return None;
    }
    let numbers = [words[0], words[1], words[2], words[3]];
    match Event::from_numbers(numbers) {
        Some(event) => Some(Line::Event(event)),
        None => {
            let mut setup = [0; raw::SETUP_WORDS];
            setup.copy_from_slice(&words[4..]);
            Some(Line::Open(Setup::from_words(&setup)))
        }
    }
}

/// Writes the line of an event, newline included. Answers how many bytes it has; none where the event has no form or the bytes are
/// too few, which is check 1, and no byte has changed.
pub fn write_event(event: Event, out: &mut [u8]) -> Option<usize> {
    let [form, kind, view, processor] = event.numbers();
    counted(raw::write_event(form, kind, view, processor, out))
}

/// Writes the line of a setup, newline included, with its views per leader and its first n clocks. Answers as [`write_event`] does; a
/// setup has no form where n is 0 or above 64.
pub fn write_setup(setup: &Setup, out: &mut [u8]) -> Option<usize> {
    counted(raw::write_setup(&setup.words(), out))
}

fn counted(bytes: u64) -> Option<usize> {
    (bytes != 0).then_some(bytes as usize)
}
