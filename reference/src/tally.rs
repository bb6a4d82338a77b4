//! The tally: "four 64-bit words a view, being the correct processors that
//! entered it, those whose view message its leader heard, those whose vote it
//! heard, and two marks (1 view certificate formed, 2 quorum certificate
//! formed)".

/// The words of one view.
pub(crate) const WORDS: usize = 4;

/// Which word of a view's four.
#[derive(Clone, Copy)]
pub(crate) enum Word {
    /// The correct processors that entered the view.
    Entered = 0,
    /// The signers of the view messages its leader heard.
    ViewHeard = 1,
    /// The signers of the votes its leader heard.
    VoteHeard = 2,
    /// The marks of its certificates.
    Marks = 3,
}

/// The mark of a formed view certificate: "A mark is one bit of its word".
pub(crate) const VIEW_FORMED: u64 = 1;
/// The mark of a formed quorum certificate.
pub(crate) const QUORUM_FORMED: u64 = 2;

/// One word of a view.
pub(crate) fn word(tally: &[u64], view: u64, which: Word) -> u64 {
    tally[place(view, which)]
}

/// Sets bits in one word of a view; the others of its bits stay.
pub(crate) fn add(tally: &mut [u64], view: u64, which: Word, bits: u64) {
    tally[place(view, which)] |= bits;
}

/// Where a word of a view stands.
const fn place(view: u64, which: Word) -> usize {
    view as usize * WORDS + which as usize
}
