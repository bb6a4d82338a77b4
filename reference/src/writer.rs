//! Writing a line into lent bytes: "writing leaves lent bytes after the
//! newline untouched".

use crate::check;
use crate::message::{Event, Message};
use crate::plan::Plan;
use crate::print;
use crate::run::Setup;

/// The bytes of the longest event: its words, brackets, blanks and newline,
/// and two numbers of 20 digits.
const LONGEST_EVENT: usize = "(deliver (view  ))\n".len() + 2 * 20;
/// The bytes of the longest opening: as before, n of two digits, and 69 other
/// numbers of 20 digits with the 63 blanks between its clocks.
const LONGEST_OPENING: usize = "(open       ())\n".len() + 2 + 69 * 20 + 63;

/// A line being put together; N bytes are enough for it.
pub(crate) struct Line<const N: usize> {
    bytes: [u8; N],
    length: usize,
}

impl<const N: usize> Line<N> {
    const fn new() -> Self {
        Self {
            bytes: [0; N],
            length: 0,
        }
    }

    fn text(&mut self, text: &[u8]) {
        self.bytes[self.length..self.length + text.len()].copy_from_slice(text);
        self.length += text.len();
    }

    fn number(&mut self, number: u64) {
        print::with_digits(number, |digits| self.text(digits));
    }

    /// Numbers with one blank between each two.
    fn numbers(&mut self, numbers: &[u64]) {
        for (place, &number) in numbers.iter().enumerate() {
            if place > 0 {
                self.text(b" ");
            }
            self.number(number);
        }
    }

    /// The line so far.
    pub(crate) fn bytes(&self) -> &[u8] {
        &self.bytes[..self.length]
    }

    /// Copies the whole line to the front of the lent bytes, or changes none
    /// of them if they are too few.
    fn copy_to(&self, out: &mut [u8]) -> Result<usize, u64> {
        let Some(front) = out.get_mut(..self.length) else {
            return Err(check::NO_FORM);
        };
        front.copy_from_slice(self.bytes());
        Ok(self.length)
    }
}

/// Writes an event and its newline, and answers how many bytes that took.
/// Check 1 refuses an event without a form and too few lent bytes, none of
/// which is changed then.
pub fn write_event(event: Event, out: &mut [u8]) -> Result<usize, u64> {
    if !event.has_form() {
        return Err(check::NO_FORM);
    }
    let mut line = Line::<LONGEST_EVENT>::new();
    match event {
        Event::Deliver(message) => carry(&mut line, b"(deliver ", message),
        Event::Sign(message) => carry(&mut line, b"(sign ", message),
        Event::Show(message) => carry(&mut line, b"(show ", message),
        Event::Settle => line.text(b"(settle)\n"),
        Event::Tick(ticks) => {
            line.text(b"(tick ");
            line.number(ticks);
            line.text(b")\n");
        }
    }
    line.copy_to(out)
}

/// The line of a delivery.
pub(crate) fn delivery(message: Message) -> Line<LONGEST_EVENT> {
    let mut line = Line::new();
    carry(&mut line, b"(deliver ", message);
    line
}

/// An event with the message inside it.
fn carry<const N: usize>(line: &mut Line<N>, word: &[u8], message: Message) {
    line.text(word);
    line.text(match message {
        Message::View(..) => b"(view ",
        Message::Vote(..) => b"(vote ",
        Message::Vc(..) => b"(vc ",
        Message::Qc(..) => b"(qc ",
    });
    line.numbers(&[message.view(), message.processor()]);
    line.text(b"))\n");
}

/// Writes an opening and its newline, and answers how many bytes that took.
/// "Lines are written with k", whichever it is. Check 1 refuses one that "has
/// no form (n is 0 or above 64)" and too few lent bytes, none of which is
/// changed then.
pub fn write_setup(setup: &Setup, out: &mut [u8]) -> Result<usize, u64> {
    let Plan {
        n,
        delta,
        gamma,
        views,
        k,
    } = setup.plan;
    if n == 0 || n > 64 {
        return Err(check::NO_FORM);
    }
    let mut line = Line::<LONGEST_OPENING>::new();
    line.text(b"(open ");
    line.numbers(&[n, delta, gamma, views, k, setup.faulty]);
    line.text(b" (");
    line.numbers(&setup.clocks[..n as usize]);
    line.text(b"))\n");
    line.copy_to(out)
}
