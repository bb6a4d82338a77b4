//! Schedules in small pieces through the programs, ordinary lines among those
//! of bytes near a newline.

use crate::adversary::Style;
use crate::by_program;
use crate::difference::Difference;
use crate::draws::Draws;
use crate::near;
use crate::openings;
use crate::pending;
use crate::readers::Readers;
use crate::search_counts::schedules::{Schedules, Sort, MOST_PIECE};
use crate::text;
use crate::trace::Trace;
use reference::Event;

/// The views that the program's lent words are enough for.
const MOST_VIEWS: u64 = 900;
/// Lines of a schedule, besides its opening.
const LINES: u64 = 40;

/// The bytes of a piece of the input of that number: each size in turn.
pub const fn piece(number: u64) -> usize {
    number as usize % MOST_PIECE + 1
}

/// Compares one schedule in such pieces, as other schedules are.
pub fn case(
    readers: Readers,
    piece: usize,
    draws: &mut Draws,
    counts: &mut Schedules,
) -> Result<(), Difference> {
    let trace = schedule(draws, &mut counts.sorts);
    pending::leave("last.schedule", trace.text());
    by_program::compare_both(readers, &trace, piece).map_err(|difference| Difference {
        what: format!("in pieces of {piece} bytes, {}", difference.what),
        ..difference
    })?;
    counts.lines.add(trace.counts());
    counts.pieces[piece - 1] += 1;
    Ok(())
}

/// A schedule, and how many of its lines are of each sort.
fn schedule(draws: &mut Draws, sorts: &mut [u64; 5]) -> Trace {
    let mut trace = Trace::new();
    let mut add = |sort: Sort, trace: &mut Trace, draws: &mut Draws| {
        sorts[sort as usize] += 1;
        let line = line(sort, trace, draws);
        if sort == Sort::Unended {
            trace.end(&line);
        } else {
            trace.line(&line);
        }
    };
    if draws.per_mille(300) {
        add(Sort::Near, &mut trace, draws);
    }
    let setup = openings::accepted(draws, MOST_VIEWS);
    let heading = openings::heading(&setup, draws);
    trace.opening(heading, &setup);
    let style = Style::drawn(draws, setup.plan.n, setup.faulty);
    for _ in 0..LINES {
        match draws.below(40) {
            0..=8 => add(Sort::Near, &mut trace, draws),
            9..=17 => add(Sort::PutIn, &mut trace, draws),
            18 => add(Sort::Wide, &mut trace, draws),
            19 if draws.per_mille(500) => add(Sort::Longest, &mut trace, draws),
            _ => _ = trace.event(style.next(trace.scene(), draws)),
        }
    }
    if draws.per_mille(300) {
        add(Sort::Unended, &mut trace, draws);
    }
    trace
}

/// A line of a sort.
fn line(sort: Sort, trace: &Trace, draws: &mut Draws) -> Vec<u8> {
    let most = draws.one_of(&[0, 8, 60, 60]);
    let length = match sort {
        Sort::Near => draws.between(0, most),
        Sort::Unended => draws.between(1, 60),
        Sort::Wide if draws.per_mille(500) => {
            return near::put_in(&text::opening(&openings::longest(), 64), draws);
        }
        Sort::Wide => draws.between(1_411, 1_461),
        Sort::Longest => draws.between(4_790, 4_810),
        Sort::PutIn => return near::put_in(&good(trace, draws), draws),
    };
    let mut line = near::line(length as usize, draws);
    if sort == Sort::Longest && draws.per_mille(500) {
        // What ends a line that is too long is no line of its own.
        line.extend(good(trace, draws));
    }
    line
}

/// A line that is accepted as it is: most often a delivery.
fn good(trace: &Trace, draws: &mut Draws) -> Vec<u8> {
    let scene = trace.scene();
    let held = scene.message(draws.place(scene.messages().len()));
    match (draws.below(8), held) {
        (0, _) => text::event(Event::Settle),
        (1, _) => {
            let setup = openings::accepted(draws, MOST_VIEWS);
            let heading = openings::heading(&setup, draws);
            text::headed(heading, &setup, setup.plan.n as usize)
        }
        (2, _) | (_, None) => text::event(Event::Tick(1)),
        (_, Some(message)) => text::event(Event::Deliver(message)),
    }
}

#[cfg(test)]
mod tests {
    use super::*;
    use crate::near::{NEAR, NEWLINE};
    use reference::{simulate, Answer};
    use std::path::Path;

    fn texts(seed: u64) -> Vec<Vec<u8>> {
        let (mut draws, mut counts) = (Draws::new(seed), Schedules::default());
        let text = |_| schedule(&mut draws, &mut counts.sorts).text().to_vec();
        (0..30).map(text).collect()
    }

    #[test]
    fn every_near_byte_taken_for_a_newline_shows() {
        let texts = texts(21);
        for byte in NEAR {
            let shows = |text: &&Vec<u8>| {
                let taken = |&it: &u8| if it == byte { NEWLINE } else { it };
                let other: Vec<u8> = text.iter().map(taken).collect();
                simulate(&other) != simulate(text)
            };
            assert!(texts.iter().filter(shows).count() > 20, "{byte:#04x}");
        }
    }

    #[test]
    fn lines_of_each_sort_are_as_long_as_they_should() {
        let (mut draws, mut sorts) = (Draws::new(22), [0; 5]);
        let texts: Vec<Trace> = (0..100).map(|_| schedule(&mut draws, &mut sorts)).collect();
        let lines = || {
            texts
                .iter()
                .flat_map(|trace| trace.text().split(|&byte| byte == NEWLINE))
        };
        let wide = lines().filter(|line| (1_411..=1_461).contains(&line.len()));
        let longest = lines().filter(|line| line.len() >= 4_790);
        assert_eq!(wide.count() as u64, sorts[Sort::Wide as usize]);
        assert_eq!(longest.count() as u64, sorts[Sort::Longest as usize]);
        assert!(sorts.iter().all(|&times| times > 10), "{sorts:?}");
        let unended = texts.iter().filter(|trace| !trace.text().ends_with(b"\n"));
        assert_eq!(unended.count() as u64, sorts[Sort::Unended as usize]);
    }

    #[test]
    fn good_lines_are_accepted_and_no_form_with_a_byte_put_in() {
        let (mut draws, mut sorts) = (Draws::new(23), [0; 5]);
        let mut accepted = 0;
        for _ in 0..200 {
            let mut trace = schedule(&mut draws, &mut sorts);
            let line = good(&trace, &mut draws);
            let put_in = near::put_in(&line, &mut draws);
            assert_eq!(trace.line(&put_in), Answer::Refused(1));
            accepted += u64::from(matches!(trace.line(&line), Answer::Done { .. }));
        }
        assert!(accepted > 100, "{accepted}");
    }

    #[test]
    fn pieces_have_every_size_in_turn() {
        assert!((0..80).map(piece).eq((1..=40).chain(1..=40)));
    }

    #[test]
    fn the_same_seed_makes_the_same_schedules() {
        assert!(texts(24) == texts(24) && texts(24) != texts(25));
    }

    #[test]
    fn another_program_is_found_out() {
        let others = Readers::of(Path::new("cat"), Path::new("cat"));
        let mut counts = Schedules::default();
        let told = case(others, 7, &mut Draws::new(26), &mut counts).expect_err("it echoes");
        let what = "in pieces of 7 bytes, printouts differ: line 1\n";
        assert!(told.what.starts_with(what), "{}", told.what);
        assert_eq!((counts.pieces[6], counts.lines.calls), (0, 0));
    }
}
