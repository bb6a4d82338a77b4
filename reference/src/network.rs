//! The network: "messages sent to correct processors and not yet delivered ...
//! They stand in sending order; a delivered one is removed and the rest close
//! up, so its place is used again. Words beyond the last message are 0." "A
//! message now takes two words"; in which form they stand is told apart, so
//! that networks of four words a message can be gone on with beside.
//!
//! `held` is at most the messages that fit wherever these functions take it.

use crate::form::{Form, Stored};
use crate::message::Message;

/// The messages that fit: "divides its words by 2", rounded down, and by 4 in
/// the wide form.
pub(crate) const fn capacity<F: Form>(_: F, network: &[u64]) -> u64 {
    (network.len() / F::WORDS) as u64
}

/// The messages held, in order.
pub(crate) fn messages<F: Form>(
    form: F,
    network: &[u64],
    held: u64,
) -> impl Iterator<Item = Stored> + use<'_, F> {
    network[..held as usize * F::WORDS]
        .chunks_exact(F::WORDS)
        .map(move |words| form.read(words))
}

/// The message at a place.
pub(crate) fn at<F: Form>(form: F, network: &[u64], place: usize) -> Stored {
    form.read(&network[place * F::WORDS..][..F::WORDS])
}

/// The words beyond the last message, an odd one at the end among them.
pub(crate) fn beyond<F: Form>(_: F, network: &[u64], held: u64) -> &[u64] {
    &network[held as usize * F::WORDS..]
}

/// The place of a message, "the first, of equal ones": equal in kind, view and
/// processor, whenever sent.
pub(crate) fn find<F: Form>(
    form: F,
    network: &[u64],
    held: u64,
    message: Message,
) -> Option<usize> {
    let sought = (message.kind(), message.view(), message.processor());
    messages(form, network, held)
        .position(|stored| (stored.kind, stored.view, stored.processor) == sought)
}

/// Takes the message at a place out, and answers when it was sent: "the rest
/// close up".
pub(crate) fn remove<F: Form>(form: F, network: &mut [u64], held: &mut u64, place: usize) -> u64 {
    let end = *held as usize * F::WORDS;
    let start = place * F::WORDS;
    let sent = at(form, network, place).sent;
    network.copy_within(start + F::WORDS..end, start);
    network[end - F::WORDS..end].fill(0);
    *held -= 1;
    sent
}

/// Adds a message behind the last one; there is room for it.
pub(crate) fn push<F: Form>(
    form: F,
    network: &mut [u64],
    held: &mut u64,
    message: Message,
    time: u64,
) {
    let stored = Stored {
        kind: message.kind(),
        view: message.view(),
        processor: message.processor(),
        sent: time,
    };
    let start = *held as usize * F::WORDS;
    form.write(stored, &mut network[start..start + F::WORDS]);
    *held += 1;
}

/// The message of a stored one, whose kind is in range as a sound run's is.
pub(crate) const fn message(stored: Stored) -> Message {
    let Stored {
        kind,
        view,
        processor,
        ..
    } = stored;
    match kind {
        1 => Message::View(view, processor),
        2 => Message::Vote(view, processor),
        3 => Message::Vc(view, processor),
        _ => Message::Qc(view, processor),
    }
}

/// The earliest sending time of the messages held.
pub(crate) fn earliest<F: Form>(form: F, network: &[u64], held: u64) -> Option<u64> {
    messages(form, network, held)
        .map(|stored| stored.sent)
        .min()
}
