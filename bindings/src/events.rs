//! Events and messages, and the four numbers that they are to the archive.

/// The kind of a message.
#[derive(Clone, Copy, Debug, PartialEq, Eq, Hash)]
pub enum Kind {
    /// A view message, to the leader of its view.
    View,
    /// A vote, to the leader of its view.
    Vote,
    /// A view certificate, to one processor.
    Vc,
    /// A quorum certificate, to one processor.
    Qc,
}

impl Kind {
    /// Its number: 1 view message, 2 vote, 3 view certificate, 4 quorum certificate.
    pub fn number(self) -> u64 {
        match self {
            Kind::View => 1,
            Kind::Vote => 2,
            Kind::Vc => 3,
            Kind::Qc => 4,
        }
    }

    /// The kind of a number, if it has one.
    pub fn from_number(number: u64) -> Option<Kind> {
        match number {
            1 => Some(Kind::View),
            2 => Some(Kind::Vote),
            3 => Some(Kind::Vc),
            4 => Some(Kind::Qc),
            _ => None,
        }
    }
}

/// A message.
#[derive(Clone, Copy, Debug, PartialEq, Eq, Hash)]
pub struct Message {
    /// Its kind.
    pub kind: Kind,
    /// The view that it is about.
    pub view: u64,
    /// The sender of a view message or vote, the receiver of a certificate.
    pub processor: u64,
}

/// What happens next.
#[derive(Clone, Copy, Debug, PartialEq, Eq, Hash)]
pub enum Event {
    /// The message, the first of equal ones, leaves the network and is handled.
    Deliver(Message),
    /// A faulty processor's view message or vote is heard by the leader of its view.
    Sign(Message),
    /// The adversary shows a certificate to a correct processor.
    Show(Message),
    /// From now on the network keeps its delay.
    Settle,
    /// Up to so many single ticks.
    Tick(u64),
}

impl Event {
    /// Form, kind, view (of ticks: how many) and processor; 0 where the form has none.
    pub fn numbers(self) -> [u64; 4] {
        let carrying = |form, m: Message| [form, m.kind.number(), m.view, m.processor];
        match self {
            Event::Deliver(m) => carrying(1, m),
            Event::Sign(m) => carrying(2, m),
            Event::Show(m) => carrying(3, m),
            Event::Settle => [4, 0, 0, 0],
            Event::Tick(ticks) => [5, 0, ticks, 0],
        }
    }

    /// The event of four numbers, if they are one.
    pub fn from_numbers([form, kind, view, processor]: [u64; 4]) -> Option<Event> {
        let message = || {
            Kind::from_number(kind).map(|kind| Message {
                kind,
                view,
                processor,
            })
        };
        match form {
            1 => message().map(Event::Deliver),
            2 => message().map(Event::Sign),
            3 => message().map(Event::Show),
            4 => Some(Event::Settle),
            5 => Some(Event::Tick(view)),
            _ => None,
        }
    }
}
