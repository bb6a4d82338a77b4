//! Lines that are no form, most of them one step away from one, and good
//! lines that only look odd.

use crate::draws::Draws;
use reference::LONGEST_LINE;

/// Bytes that matter to a reader, and some that do not.
const BYTES: &[u8] = b"()  00123456789abdeginoqstvwyz-+.,;\t\r\0\x7f\x80\xff/:'*AVQ";

/// Numbers around 2^64, and numbers in other spellings.
const NUMBERS: &[&[u8]] = &[
    b"18446744073709551614",
    b"18446744073709551615",
    b"18446744073709551616",
    b"18446744073709551625",
    b"36893488147419103232",
    b"99999999999999999999",
    b"184467440737095516150",
    b"340282366920938463463374607431768211456",
    b"00",
    b"01",
    b"000000000000000000001",
    b"-0",
    b"-1",
    b"+1",
    b"1.0",
    b"1e3",
    b"0x1",
    b"",
];

/// A good line with a small damage: a byte changed, dropped, doubled or put
/// in, a number spelt otherwise, something before or behind it.
pub fn damaged(line: &[u8], draws: &mut Draws) -> Vec<u8> {
    let mut bytes = line.to_vec();
    let place = draws.place(bytes.len());
    let byte = draws.one_of(BYTES);
    if bytes.is_empty() {
        return vec![byte];
    }
    match draws.below(12) {
        0 => bytes[place] = byte,
        1 => bytes[place] ^= 1 << draws.below(8),
        2 => drop(bytes.remove(place)),
        3 => bytes.insert(place, bytes[place]),
        4 => bytes.insert(place, byte),
        5 => bytes.swap(place, line.len() - 1 - place),
        6 => bytes.truncate(place),
        7 => bytes.push(draws.one_of(b")( \r\t0")),
        8 => bytes.insert(0, draws.one_of(b"( \r\t0")),
        9 => {
            bytes = respelt(&bytes, draws, |number, draws| {
                if draws.per_mille(500) {
                    [b"0", number].concat()
                } else {
                    draws.one_of(NUMBERS).to_vec()
                }
            })
        }
        10 => bytes = bytes.to_ascii_uppercase(),
        _ => {
            let copy = bytes.clone();
            bytes.extend_from_slice(&copy);
        }
    }
    // A newline makes two lines of one, which is worth having but seldom.
    if draws.per_mille(980) {
        bytes
            .iter_mut()
            .filter(|byte| **byte == b'\n')
            .for_each(|byte| *byte = b' ');
    }
    bytes
}

/// A line with one of its numbers put another way; without any it stays.
fn respelt(
    line: &[u8],
    draws: &mut Draws,
    spell: impl FnOnce(&[u8], &mut Draws) -> Vec<u8>,
) -> Vec<u8> {
    let is_start = |&place: &usize| {
        line[place].is_ascii_digit() && (place == 0 || !line[place - 1].is_ascii_digit())
    };
    let starts: Vec<usize> = (0..line.len()).filter(is_start).collect();
    if starts.is_empty() {
        return line.to_vec();
    }
    let start = draws.one_of(&starts);
    let digits = line[start..]
        .iter()
        .take_while(|byte| byte.is_ascii_digit());
    let end = start + digits.count();
    let number = spell(&line[start..end], draws);
    [&line[..start], &number, &line[end..]].concat()
}

/// A good line with one of its numbers replaced by one near 2^64, which is
/// still of the form up to 2^64−1.
pub fn huge(line: &[u8], draws: &mut Draws) -> Vec<u8> {
    respelt(line, draws, |_, draws| draws.one_of(&NUMBERS[..4]).to_vec())
}

/// A line about as long as the longest, or much longer, that starts or ends
/// like a good one.
pub fn long(draws: &mut Draws) -> Vec<u8> {
    let most = LONGEST_LINE;
    let length = draws.one_of(&[most - 1, most, most + 1, most + 2, 65_536, 100_000]);
    let filler = draws.one_of(b" 0(x1");
    let mut bytes = vec![filler; length];
    let good = draws.one_of(&[&b"(settle)"[..], b"(tick 1)", b"(tick 1", b"1)", b""]);
    if draws.per_mille(500) {
        bytes[..good.len()].copy_from_slice(good);
    } else {
        bytes[length - good.len()..].copy_from_slice(good);
    }
    bytes
}

/// Any bytes but newlines.
pub fn noise(draws: &mut Draws) -> Vec<u8> {
    let length = draws.one_of(&[0, 0, 1, 1, 2, 7, 8, 9, 30]);
    let mut bytes = Vec::new();
    bytes.resize_with(length, || draws.one_of(BYTES));
    bytes
}

#[cfg(test)]
mod tests {
    use super::*;
    use reference::{read_line, Reading};

    #[test]
    fn most_damaged_lines_are_no_form() {
        let mut draws = Draws::new(5);
        let line = b"(deliver (view 12 3))";
        let read = |_| read_line(&damaged(line, &mut draws));
        let none = (0..1_000).map(read).filter(|read| *read == Reading::NoForm);
        assert!(none.count() > 800);
    }

    #[test]
    fn long_lines_are_no_form() {
        let mut draws = Draws::new(6);
        assert!((0..100).all(|_| read_line(&long(&mut draws)) == Reading::NoForm));
    }

    #[test]
    fn a_number_can_be_respelt() {
        let mut draws = Draws::new(7);
        let line = respelt(b"(tick 12)", &mut draws, |_, _| b"7".to_vec());
        assert_eq!(line, b"(tick 7)");
        let line = respelt(b"(settle)", &mut draws, |_, _| b"7".to_vec());
        assert_eq!(line, b"(settle)");
    }
}
