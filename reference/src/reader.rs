//! Reading a line: "Fields are decimal without leading zeros, below 2^64,
//! separated by one blank; a line is at most 4,800 bytes and then one
//! newline".

use crate::message::{Event, Message};
use crate::plan::Plan;
use crate::run::Setup;

/// The most bytes a line has before its newline.
pub const LONGEST_LINE: usize = 4_800;

/// What the bytes of a line are.
// A reading lives only while its line is answered, so its size costs nothing.
#[allow(clippy::large_enum_variant)]
#[derive(Clone, Copy, PartialEq, Eq, Debug)]
pub enum Reading {
    /// The form of an event.
    Event(Event),
    /// The form of an opening; its clocks from n on are 0.
    Opening(Setup),
    /// "The line is not one of the forms above".
    NoForm,
}

/// Reads the bytes of a line, its newline not among them.
pub fn read_line(line: &[u8]) -> Reading {
    if line.len() > LONGEST_LINE {
        return Reading::NoForm;
    }
    let mut rest = Rest { bytes: line };
    match rest.form() {
        Some(reading) if rest.bytes.is_empty() => reading,
        _ => Reading::NoForm,
    }
}

/// The number that some bytes are, if they are one and nothing else.
pub(crate) fn read_number(bytes: &[u8]) -> Option<u64> {
    let mut rest = Rest { bytes };
    let number = rest.number()?;
    rest.bytes.is_empty().then_some(number)
}

/// The bytes of a line not yet read.
struct Rest<'a> {
    bytes: &'a [u8],
}

impl Rest<'_> {
    /// One of the forms.
    fn form(&mut self) -> Option<Reading> {
        let event = match self.word()? {
            b"(deliver" => Event::Deliver(self.inner()?),
            b"(sign" => Event::Sign(self.inner()?),
            b"(show" => Event::Show(self.inner()?),
            b"(tick" => Event::Tick(self.last_number()?),
            b"(settle)" => Event::Settle,
            b"(open" => return Some(Reading::Opening(self.opening()?)),
            _ => return None,
        };
        event.has_form().then_some(Reading::Event(event))
    }

    /// The bytes up to the next blank or the end, the blank left.
    fn word(&mut self) -> Option<&[u8]> {
        let length = self
            .bytes
            .iter()
            .position(|&byte| byte == b' ')
            .unwrap_or(self.bytes.len());
        let (word, bytes) = self.bytes.split_at_checked(length)?;
        self.bytes = bytes;
        Some(word)
    }

    /// Exactly these bytes.
    fn exactly(&mut self, text: &[u8]) -> Option<()> {
        self.bytes = self.bytes.strip_prefix(text)?;
        Some(())
    }

    /// A number: "decimal without leading zeros, below 2^64".
    fn number(&mut self) -> Option<u64> {
        let digits = self
            .bytes
            .iter()
            .take_while(|byte| byte.is_ascii_digit())
            .count();
        let (digits, bytes) = self.bytes.split_at(digits);
        if digits.is_empty() || (digits.len() > 1 && digits[0] == b'0') {
            return None;
        }
        self.bytes = bytes;
        digits.iter().try_fold(0u64, |number, digit| {
            number.checked_mul(10)?.checked_add(u64::from(digit - b'0'))
        })
    }

    /// A blank and a number.
    fn next_number(&mut self) -> Option<u64> {
        self.exactly(b" ")?;
        self.number()
    }

    /// A blank, a number and the closing bracket.
    fn last_number(&mut self) -> Option<u64> {
        let number = self.next_number()?;
        self.exactly(b")")?;
        Some(number)
    }

    /// A blank, "the message inside the form" and the closing bracket.
    fn inner(&mut self) -> Option<Message> {
        self.exactly(b" (")?;
        let message: fn(u64, u64) -> Message = match self.word()? {
            b"view" => Message::View,
            b"vote" => Message::Vote,
            b"vc" => Message::Vc,
            b"qc" => Message::Qc,
            _ => return None,
        };
        let (view, processor) = (self.next_number()?, self.last_number()?);
        self.exactly(b")")?;
        Some(message(view, processor))
    }

    /// The numbers of an opening before its table: the plan and the faulty
    /// processors. Of six the fifth is k; "any opening line without it is read
    /// as k=3".
    fn heading(&mut self) -> Option<(Plan, u64)> {
        let mut plan = Plan {
            n: self.next_number()?,
            delta: self.next_number()?,
            gamma: self.next_number()?,
            views: self.next_number()?,
            k: Plan::VIEWS_PER_LEADER,
        };
        let fifth = self.next_number()?;
        if self.bytes.starts_with(b" (") {
            return Some((plan, fifth));
        }
        plan.k = fifth;
        Some((plan, self.next_number()?))
    }

    /// What follows `(open`: "n ... and n clocks, 1 to 64 of them".
    fn opening(&mut self) -> Option<Setup> {
        let (plan, faulty) = self.heading()?;
        let mut clocks = [0; 64];
        let (first, others) = clocks
            .get_mut(..usize::try_from(plan.n).ok()?)?
            .split_first_mut()?;
        self.exactly(b" (")?;
        *first = self.number()?;
        for clock in others {
            *clock = self.next_number()?;
        }
        self.exactly(b"))")?;
        Some(Setup {
            plan,
            faulty,
            clocks,
        })
    }
}
