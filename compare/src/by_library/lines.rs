//! Reading and writing lines.

use crate::counts::Counts;
use crate::damage;
use crate::difference::{told, Difference};
use crate::draws::Draws;
use crate::lent::Lent;
use crate::openings;
use crate::reference_calls::{self, guarded};
use crate::text::{self, Heading};
use crate::wild;
use crate::words::{numbers_of, setup_of, setup_words, Numbers, OPENING, READ_WORDS, SETUP_WORDS};
use fever::raw;
use reference::{Plan, Setup};

/// The views that openings of lines have, at most.
const MOST_VIEWS: u64 = 6_000;

/// What the lines of openings say before their clocks; the first and the last
/// of these are no form.
const HEADINGS: [Heading; 8] = [
    Heading::Four,
    Heading::Five,
    Heading::Five,
    Heading::Six,
    Heading::Six,
    Heading::Six,
    Heading::Six,
    Heading::Seven,
];

/// Reads one line.
pub fn reading(draws: &mut Draws, counts: &mut Counts) -> Result<(), Difference> {
    let line = line(draws);
    let length = match draws.below(30) {
        0 => draws.place(READ_WORDS),
        1 => READ_WORDS + 2,
        _ => READ_WORDS,
    };
    let before = Lent::untouched(length, draws);
    let (mut proved, mut expected) = (before.clone(), before.clone());
    let answer = raw::read_line(&line, proved.front_mut());
    let reference = guarded(|| reference_calls::read_line(&line, expected.front_mut()));
    counts.call(answer);
    counts.turns.line(&line, answer == 0);
    if Some(answer) == reference && proved == expected && (answer == 0 || expected == before) {
        return match expected.front() {
            [OPENING, _, _, _, setup @ ..] if answer == 0 => rewritten(line, setup, draws, counts),
            _ => Ok(()),
        };
    }
    Err(Difference {
        what: format!(
            "reading a line into {length} words differs\n\
             proved: {answer} {:?}\nreference: {} {:?}",
            proved.all(),
            told(reference),
            expected.all()
        ),
        name: "difference.line".to_owned(),
        contents: line,
    })
}

/// Writes an opening that was read again: as it was, but with k where it was
/// without, and read as three views per leader there.
fn rewritten(
    line: Vec<u8>,
    setup: &[u64],
    draws: &mut Draws,
    counts: &mut Counts,
) -> Result<(), Difference> {
    let setup = setup_of(setup);
    let n = setup.plan.n as usize;
    let without = text::numbers_before_clocks(&line) == Some(Heading::Five as usize);
    let told = text::opening(&setup, n);
    let kept = if without {
        setup.plan.k == Plan::VIEWS_PER_LEADER && text::headed(Heading::Five, &setup, n) == line
    } else {
        told == line
    };
    let what = Written::Setup(setup_words(&setup).to_vec());
    let mut written = vec![b'\n'; told.len() + 1];
    let bytes = guarded(|| what.refer(&mut written));
    if !kept || bytes != Some(written.len() as u64) || !written.starts_with(&told) {
        return Err(Difference {
            what: format!("an opening is read otherwise than it is written: {setup:?}"),
            name: "difference.line".to_owned(),
            contents: line,
        });
    }
    counts.turns.rewritten += u64::from(without);
    both(&what, written.len(), draws, counts)
}

/// A line: good, damaged or anything.
fn line(draws: &mut Draws) -> Vec<u8> {
    let setup = setup(draws);
    let good = if draws.per_mille(700) {
        text::event(wild::event(setup.plan, draws))
    } else {
        let heading = draws.one_of(&HEADINGS);
        text::headed(heading, &setup, setup.plan.n.min(80) as usize)
    };
    match draws.below(20) {
        0..=7 => good,
        8..=14 => damage::damaged(&good, draws),
        15 => damage::damaged(&damage::damaged(&good, draws), draws),
        16 | 17 => damage::huge(&good, draws),
        18 if draws.per_mille(50) => damage::long(draws),
        _ => damage::noise(draws),
    }
}

/// A setup, sensible or not: a line says nothing about its limits.
fn setup(draws: &mut Draws) -> Setup {
    let mut setup = openings::accepted(draws, MOST_VIEWS);
    let any = draws.edge();
    if draws.per_mille(300) {
        setup.plan.n = draws.one_of(&[0, 1, 2, 3, 63, 64, 65, any]);
    }
    if draws.per_mille(300) {
        setup.plan.delta = draws.edge();
        setup.plan.gamma = draws.edge();
        setup.plan.views = draws.edge();
        setup.plan.k = draws.edge();
        setup.faulty = draws.edge();
    }
    if draws.per_mille(200) {
        setup.clocks.fill(u64::MAX);
    }
    if draws.per_mille(20) {
        return openings::longest();
    }
    setup
}

/// Writes one event or setup with every number of lent bytes near the needed
/// one, and with none.
pub fn writing(draws: &mut Draws, counts: &mut Counts) -> Result<(), Difference> {
    let setup = setup(draws);
    let what = if draws.per_mille(700) {
        let mut numbers = numbers_of(wild::event(setup.plan, draws));
        if draws.per_mille(100) {
            numbers[draws.place(2)] = draws.below(8);
        }
        Written::Event(numbers)
    } else {
        let mut words = setup_words(&setup).to_vec();
        if draws.per_mille(50) {
            words.truncate(draws.place(SETUP_WORDS + 1));
        }
        Written::Setup(words)
    };
    let needed = guarded(|| what.refer(&mut [0; 5_000])).unwrap_or(0) as usize;
    for length in needed.saturating_sub(3)..=needed + 3 {
        both(&what, length, draws, counts)?;
    }
    let fewer = draws.place(needed);
    both(&what, fewer, draws, counts)
}

/// What is written.
#[derive(Debug)]
enum Written {
    /// An event, by its numbers.
    Event(Numbers),
    /// A setup, by its words.
    Setup(Vec<u64>),
}

impl Written {
    fn refer(&self, out: &mut [u8]) -> u64 {
        match self {
            Self::Event(numbers) => reference_calls::write_event(*numbers, out),
            Self::Setup(words) => reference_calls::write_setup(words, out),
        }
    }

    fn prove(&self, out: &mut [u8]) -> u64 {
        match self {
            &Self::Event([form, kind, view, processor]) => {
                raw::write_event(form, kind, view, processor, out)
            }
            Self::Setup(words) => raw::write_setup(words, out),
        }
    }
}

/// Makes both calls with so many lent bytes.
fn both(
    what: &Written,
    length: usize,
    draws: &mut Draws,
    counts: &mut Counts,
) -> Result<(), Difference> {
    let fill = draws.one_of(&[0, b'x', b'\n', 0xFF]);
    let before = Lent::new(&vec![fill; length], &[fill; 9]);
    let (mut proved, mut expected) = (before.clone(), before.clone());
    let answer = what.prove(proved.front_mut());
    let reference = guarded(|| what.refer(expected.front_mut()));
    counts.call(u64::from(answer == 0));
    if Some(answer) == reference && proved == expected && (answer > 0 || expected == before) {
        return Ok(());
    }
    Err(Difference {
        what: format!(
            "writing a line into {length} bytes differs\n\
             proved: {answer} {}\nreference: {} {}",
            String::from_utf8_lossy(proved.all()),
            told(reference),
            String::from_utf8_lossy(expected.all())
        ),
        name: "difference.writing".to_owned(),
        contents: format!("{what:?}\n{length} bytes lent\n").into_bytes(),
    })
}
