//! How a message of the network stands in words: two of them, or the four of
//! document 01 that networks had before.

/// A message as it stands in a network, numbers of any size.
#[derive(Clone, Copy, PartialEq, Eq, Debug)]
pub struct Stored {
    /// "1 view, 2 vote, 3 view certificate, 4 quorum certificate", or what
    /// stands there instead.
    pub kind: u64,
    /// The view it names.
    pub view: u64,
    /// "the sender for kinds 1 and 2, the receiver for 3 and 4."
    pub processor: u64,
    /// When it was sent.
    pub sent: u64,
}

/// A form of network: how many words a message takes, and what they say.
pub trait Form: Copy {
    /// The words of one message.
    const WORDS: usize;
    /// The least words of a network for each processor: check 6.
    const LEAST: u64;

    /// The message of its words.
    fn read(self, words: &[u64]) -> Stored;

    /// Writes a message, which is in range, over its words.
    fn write(self, stored: Stored, words: &mut [u64]);
}

/// "view × 512 + (kind − 1) × 64 + processor, then the sending time."
#[derive(Clone, Copy, PartialEq, Eq, Debug)]
pub struct Packed;

impl Form for Packed {
    const WORDS: usize = 2;
    /// "A network needs at least 4n words".
    const LEAST: u64 = 4;

    fn read(self, words: &[u64]) -> Stored {
        let (name, sent) = (words[0], words[1]);
        Stored {
            kind: name % 512 / 64 + 1,
            view: name / 512,
            processor: name % 64,
            sent,
        }
    }

    fn write(self, stored: Stored, words: &mut [u64]) {
        words[0] = stored.view * 512 + (stored.kind - 1) * 64 + stored.processor;
        words[1] = stored.sent;
    }
}

/// "four 64-bit words each: kind, view, processor, sending time".
#[derive(Clone, Copy, PartialEq, Eq, Debug)]
pub struct Wide;

impl Form for Wide {
    const WORDS: usize = 4;
    /// "the network fewer than 8n".
    const LEAST: u64 = 8;

    fn read(self, words: &[u64]) -> Stored {
        Stored {
            kind: words[0],
            view: words[1],
            processor: words[2],
            sent: words[3],
        }
    }

    fn write(self, stored: Stored, words: &mut [u64]) {
        let Stored {
            kind,
            view,
            processor,
            sent,
        } = stored;
        words.copy_from_slice(&[kind, view, processor, sent]);
    }
}
