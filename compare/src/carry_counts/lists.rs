//! What was met of lists of events on networks of both forms.

use super::add;

/// Counts of lists of events, each on networks of both forms.
#[derive(Clone, Default, Debug)]
pub struct Lists {
    /// The lists, each from an accepted opening on.
    pub opened: u64,
    /// Lists from a run on that was handed in.
    pub handed_in: u64,
    /// Openings that were refused alike.
    pub refused: u64,
    /// Openings that check 6 answered differently, for the network's sake.
    pub apart: u64,
    /// Events answered alike.
    pub events: u64,
    /// Lists that ended as one network was full: that of two words a message
    /// alone, that of four alone, both.
    pub full: [u64; 3],
    /// Runs carried over to two words a message on the way, and to four.
    pub carried: [u64; 2],
}

impl Lists {
    /// All that is counted, each with its name.
    pub(super) const fn named(&self) -> [(u64, &'static str); 10] {
        [
            (self.opened, "lists"),
            (self.handed_in, "lists from a run handed in"),
            (self.refused, "openings refused alike"),
            (self.apart, "openings apart by 6"),
            (self.events, "events"),
            (self.full[0], "ended by 18 in two words a message"),
            (self.full[1], "ended by 18 in four words a message"),
            (self.full[2], "ended by 18 in both"),
            (self.carried[0], "packed on the way"),
            (self.carried[1], "unpacked on the way"),
        ]
    }

    pub(super) fn add(&mut self, other: &Self) {
        self.opened += other.opened;
        self.handed_in += other.handed_in;
        self.refused += other.refused;
        self.apart += other.apart;
        self.events += other.events;
        add(&mut self.full, &other.full);
        add(&mut self.carried, &other.carried);
    }
}
