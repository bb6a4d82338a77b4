//! Words of eight bytes: "A word is reported exactly when one of its bytes is
//! a newline."

use crate::difference::Difference;
use crate::draws::Draws;
use crate::near::{self, NEWLINE};
use crate::search_counts::words::Words;
use reference::has_newline;

/// The bytes of words in which some are changed.
const GROUNDS: [[u8; 8]; 9] = [
    [0x00; 8],
    [0xFF; 8],
    [NEWLINE; 8],
    [0x0B; 8],
    [0x8A; 8],
    [0x09; 8],
    [0x7F; 8],
    [0x80; 8],
    *b"(settle)",
];

/// Those in which two neighbours are changed.
const FEWER: [[u8; 8]; 4] = [[0x00; 8], [0x0B; 8], [0x8A; 8], *b"(settle)"];

/// What is added to bytes, and taken from them, carries and borrows running
/// on.
const STEPS: [u64; 3] = [1, 0x7F, 0x80];

/// Whether a word has a newline.
pub type Search = fn(u64) -> bool;

/// Compares every value of one byte, every pair of two neighbours, and words
/// of one byte with a bit changed and something added or taken away.
pub fn fixed(search: Search, counts: &mut Words) -> Result<(), Difference> {
    for ground in GROUNDS {
        for place in 0..8 {
            for byte in 0..=u8::MAX {
                let mut bytes = ground;
                bytes[place] = byte;
                same(search, u64::from_le_bytes(bytes), counts)?;
            }
        }
    }
    for ground in FEWER {
        for place in 0..7 {
            for pair in 0..=u16::MAX {
                let mut bytes = ground;
                bytes[place..place + 2].copy_from_slice(&pair.to_le_bytes());
                same(search, u64::from_le_bytes(bytes), counts)?;
            }
        }
    }
    for ground in GROUNDS {
        let word = u64::from_le_bytes(ground);
        stepped(search, word, counts)?;
        for bit in 0..64 {
            stepped(search, word ^ (1 << bit), counts)?;
        }
    }
    Ok(())
}

/// Compares a word, and what it comes to when something is added to one of its
/// bytes or taken from it.
fn stepped(search: Search, word: u64, counts: &mut Words) -> Result<(), Difference> {
    same(search, word, counts)?;
    for place in 0..8 {
        for step in STEPS.map(|step| step << (8 * place)) {
            same(search, word.wrapping_add(step), counts)?;
            same(search, word.wrapping_sub(step), counts)?;
        }
    }
    Ok(())
}

/// Compares so many drawn words.
pub fn drawn(
    search: Search,
    words: u64,
    draws: &mut Draws,
    counts: &mut Words,
) -> Result<(), Difference> {
    (0..words).try_for_each(|_| same(search, near::word(draws), counts))
}

/// Compares one word.
fn same(search: Search, word: u64, counts: &mut Words) -> Result<(), Difference> {
    let (proved, expected) = (search(word), has_newline(word));
    counts.take(word);
    if proved == expected {
        return Ok(());
    }
    let answers = format!("proved: {proved}\nreference: {expected}\n");
    Err(Difference {
        what: format!("whether a word has a newline differs\n{answers}"),
        name: "difference.word".to_owned(),
        contents: format!("word: {word:#018x}\n{answers}").into_bytes(),
    })
}

#[cfg(test)]
mod tests {
    use super::*;

    const ONES: u64 = 0x0101_0101_0101_0101;
    const LOW: u64 = 0x7F7F_7F7F_7F7F_7F7F;
    const TOPS: u64 = 0x8080_8080_8080_8080;

    /// What differs from a newline, byte by byte.
    const fn other(word: u64) -> u64 {
        word ^ 0x0A0A_0A0A_0A0A_0A0A
    }

    /// The difference that another search is found out by, drawn or fixed.
    fn found_out(search: Search) -> [Option<Difference>; 2] {
        let (mut counts, mut draws) = (Words::default(), Draws::new(5));
        [
            fixed(search, &mut counts).err(),
            drawn(search, 200_000, &mut draws, &mut counts).err(),
        ]
    }

    #[test]
    fn exact_ones_show_no_difference_and_meet_all() {
        let exact: [Search; 3] = [
            has_newline,
            |word| other(word).wrapping_sub(ONES) & !other(word) & TOPS != 0,
            |word| ((other(word) & LOW) + LOW) | other(word) | LOW != u64::MAX,
        ];
        for search in exact {
            assert!(found_out(search).iter().all(Option::is_none));
        }
        let mut counts = Words::default();
        assert!(fixed(has_newline, &mut counts).is_ok());
        assert!(drawn(has_newline, 400_000, &mut Draws::new(6), &mut counts).is_ok());
        assert_eq!(counts.lacks(1_000), None, "{counts}");
    }

    #[test]
    fn others_are_found_out_by_what_is_fixed_and_by_what_is_drawn() {
        let others: [Search; 12] = [
            |_| false,
            |_| true,
            |word| !has_newline(word),
            |word| ((other(word) & LOW) + LOW) | LOW != u64::MAX,
            |word| other(word).wrapping_sub(ONES) & TOPS != 0,
            |word| (other(word) & LOW).wrapping_sub(ONES) & TOPS != 0,
            |word| other(word).wrapping_sub(ONES) & !other(word) & (TOPS >> 8) != 0,
            |word| other(word).wrapping_sub(ONES) & !other(word) & (TOPS << 8) != 0,
            |word| other(word).wrapping_sub(ONES << 8) & !other(word) & TOPS != 0,
            |word| other(word).wrapping_add(LOW) | other(word) | LOW != u64::MAX,
            |word| has_newline(word & !TOPS),
            |word| has_newline(word) || word.to_le_bytes().contains(&b'\r'),
        ];
        for (number, search) in others.into_iter().enumerate() {
            assert!(found_out(search).iter().all(Option::is_some), "{number}");
        }
    }

    #[test]
    fn a_difference_is_shown_with_its_word() {
        let [fixed, _] = found_out(|word| has_newline(word) && word >> 56 != 0x0A);
        let Difference {
            what,
            name,
            contents,
        } = fixed.expect("the last byte is not looked at");
        let told = "differs\nproved: false\nreference: true\n";
        assert!(what.ends_with(told), "{what}");
        let shown = b"word: 0x0a00000000000000\nproved: false\nreference: true\n";
        assert_eq!(
            (name.as_str(), &contents[..]),
            ("difference.word", &shown[..])
        );
    }
}
