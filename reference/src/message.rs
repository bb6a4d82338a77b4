//! Messages and events.

/// A message: "one of four kinds", each with a view and a processor. "The
/// processor is the sender for kinds 1 and 2, the receiver for 3 and 4."
#[derive(Clone, Copy, PartialEq, Eq, Debug)]
pub enum Message {
    /// A view message: its view and its sender.
    View(u64, u64),
    /// A vote: its view and its sender.
    Vote(u64, u64),
    /// A view certificate: its view and its receiver.
    Vc(u64, u64),
    /// A quorum certificate: its view and its receiver.
    Qc(u64, u64),
}

impl Message {
    /// "kind (1 view, 2 vote, 3 view certificate, 4 quorum certificate)".
    pub const fn kind(self) -> u64 {
        match self {
            Self::View(..) => 1,
            Self::Vote(..) => 2,
            Self::Vc(..) => 3,
            Self::Qc(..) => 4,
        }
    }

    /// The view it names.
    pub const fn view(self) -> u64 {
        match self {
            Self::View(view, _) | Self::Vote(view, _) | Self::Vc(view, _) | Self::Qc(view, _) => {
                view
            }
        }
    }

    /// The processor it names.
    pub const fn processor(self) -> u64 {
        match self {
            Self::View(_, processor)
            | Self::Vote(_, processor)
            | Self::Vc(_, processor)
            | Self::Qc(_, processor) => processor,
        }
    }
}

/// An event of a schedule, openings apart.
#[derive(Clone, Copy, PartialEq, Eq, Debug)]
pub enum Event {
    /// A message "leaves the network (the first, of equal ones) and is
    /// handled".
    Deliver(Message),
    /// A "faulty processor's signature is heard by the leader".
    Sign(Message),
    /// A "correct processor receives a certificate from the adversary".
    Show(Message),
    /// "from now on the network keeps `delta`".
    Settle,
    /// "up to m single ticks", m from 1.
    Tick(u64),
}

impl Event {
    /// Whether it has a form: check 1 refuses "an event handed in" that "has
    /// 0 ticks or a kind its form lacks".
    pub const fn has_form(self) -> bool {
        match self {
            Self::Deliver(_) | Self::Settle => true,
            Self::Sign(message) => matches!(message, Message::View(..) | Message::Vote(..)),
            Self::Show(message) => matches!(message, Message::Vc(..) | Message::Qc(..)),
            Self::Tick(ticks) => ticks > 0,
        }
    }
}
