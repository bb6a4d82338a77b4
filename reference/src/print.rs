//! Bytes of decimal numbers and of the printed answers.

use crate::check;
use crate::run::Answer;

/// The most digits of a number below 2^64.
const MOST_DIGITS: usize = 20;

/// Gives the decimal digits of a number to a taker of bytes.
pub(crate) fn with_digits<T>(mut number: u64, take: impl FnOnce(&[u8]) -> T) -> T {
    let mut digits = [0; MOST_DIGITS];
    let mut start = MOST_DIGITS;
    loop {
        start -= 1;
        digits[start] = b'0' + (number % 10) as u8;
        number /= 10;
        if number == 0 {
            return take(&digits[start..]);
        }
    }
}

/// Prints `(word a b ..)` and a newline.
pub(crate) fn line(out: &mut Vec<u8>, word: &[u8], numbers: &[u64]) {
    out.push(b'(');
    out.extend_from_slice(word);
    for &number in numbers {
        out.push(b' ');
        with_digits(number, |digits| out.extend_from_slice(digits));
    }
    out.extend_from_slice(b")\n");
}

/// Prints an answer: "`(done a h)`, a ticks done (0 for other forms), h
/// messages held; `(stopped a h r)` for ticks ended by check 16, 17 or 18 ...;
/// or `(refused r)`".
pub(crate) fn answer(out: &mut Vec<u8>, answer: Answer) {
    match answer {
        Answer::Done { ticks, held } => line(out, b"done", &[ticks, held]),
        Answer::Stopped { ticks, held, check } => line(out, b"stopped", &[ticks, held, check]),
        Answer::Refused(check) => line(out, b"refused", &[check]),
    }
}

/// Prints the answer to a run of ticks, with `(stopped a h r)` also for one of
/// which "the first was refused", "a being 0" then.
pub(crate) fn answer_to_ticks(out: &mut Vec<u8>, given: Answer, held: u64) {
    match given {
        Answer::Refused(check @ check::OVERDUE..=check::NETWORK_FULL) => {
            line(out, b"stopped", &[0, held, check]);
        }
        other => answer(out, other),
    }
}
