//! Loads in pieces: bytes too few, and going on from any run.

use crate::common::{setup, usual, Draws, World, USUAL};
use crate::loads::{begun, drawn, gone_on, load, opening, NEVER, TICKING};
use reference::{Load, Piece, Plan};

#[test]
fn a_refused_opening_changes_nothing() {
    for (refused, check) in [
        (setup(Plan { n: 3, ..USUAL }, 0, &[]), 2),
        (setup(USUAL, 3, &[]), 5),
        (usual(&[12]), 7),
        (usual(&[5]), 8),
    ] {
        let mut world = World::opened(&usual(&[]));
        let before = world.clone();
        let mut left = Load {
            step: 7,
            ..load(5, 0, 1)
        };
        for room in [0, 500] {
            let (piece, text) = begun(&mut world, &refused, &mut left, room);
            assert_eq!((piece, text.as_str()), (Err(check), ""));
        }
        assert!(world == before && left.step == 7);
    }
    let mut left = load(5, 0, 1);
    let (piece, _) = begun(&mut World::lent(23, 64), &usual(&[]), &mut left, 500);
    assert_eq!(piece, Err(6));
}

#[test]
fn bytes_too_few_for_a_line_leave_it() {
    let first = opening(&usual(&[])).len();
    let mut world = World::opened(&usual(&[1, 1, 1, 1]));
    let before = world.clone();
    let mut left = load(5, 0, TICKING);
    let (piece, _) = begun(&mut world, &usual(&[]), &mut left, first - 1);
    let nothing = Piece {
        bytes: 0,
        full: true,
    };
    assert_eq!(piece, Ok(nothing));
    assert!(world == before && left == load(5, 0, TICKING));
    // Room for the opening, for settling, for two ticks; a delivery has 21.
    for (bytes, lines, step) in [(0, 1, 0), (8, 1, 0), (9, 2, 0), (17, 2, 0), (18, 3, 1)] {
        let mut world = World::lent(24, 64);
        let mut left = load(5, 0, TICKING);
        let (piece, text) = begun(&mut world, &usual(&[]), &mut left, first + bytes);
        assert!(piece.expect("it is opened").full);
        assert_eq!((text.lines().count(), left.step), (lines, step));
        assert_eq!(world.run.settled, lines > 1);
    }
    for (bytes, lines, step) in [(27, 4, 2), (36, 4, 2), (47, 4, 2), (48, 5, 3)] {
        let mut world = World::lent(24, 64);
        let mut left = load(5, 0, TICKING);
        let (piece, text) = begun(&mut world, &usual(&[]), &mut left, first + bytes);
        assert!(piece.expect("it is opened").full);
        assert_eq!((text.lines().count(), left.step), (lines, step), "{bytes}");
    }
}

#[test]
fn a_refused_event_without_room_ends_it_as_full() {
    let short = setup(Plan { views: 3, ..USUAL }, 1, &[]);
    let first = opening(&short).len() + 11 * 9;
    for (room, full) in [(first, true), (first + 8, true), (first + 9, false)] {
        let (mut world, mut left) = (World::lent(24, 64), load(NEVER, NEVER, 5));
        let (piece, _) = begun(&mut world, &short, &mut left, room);
        let bytes = first;
        assert_eq!((piece, left.step), (Ok(Piece { bytes, full }), 11));
    }
}

#[test]
fn unsound_runs_are_gone_on_with_for_nothing() {
    let mut world = World::opened(&usual(&[]));
    world.run.gst = 1;
    let before = world.clone();
    let mut left = load(5, NEVER, 1);
    assert_eq!(gone_on(&mut world, &mut left, 500).0, Err(9));
    assert!(world == before && left == load(5, NEVER, 1));
    // The time alone: the first event is refused, if its line has room. A tick
    // that check 9 refuses is not refused as overdue.
    for (seed, settle, settled, line) in [
        (TICKING, NEVER, false, 9),
        (TICKING, NEVER, true, 9),
        (TICKING, 0, false, 9),
        (1, NEVER, true, 21),
    ] {
        let mut world = World::opened(&usual(&[]));
        (world.run.time, world.run.settled) = (24, settled);
        let before = world.clone();
        for room in [0, line - 1, line, 500] {
            let mut left = load(5, settle, seed);
            let full = room < line;
            let piece = gone_on(&mut world, &mut left, room).0;
            assert_eq!(piece, Ok(Piece { bytes: 0, full }));
            assert!(world == before && left == load(5, settle, seed));
        }
    }
    let mut left = load(0, 0, 1);
    let piece = gone_on(&mut world, &mut left, 500).0;
    assert_eq!(piece, Err(9));
}

#[test]
fn a_time_that_comes_to_its_limit_ends_the_load() {
    let mut world = World::opened(&usual(&[]));
    world.run.time = 22;
    let mut left = load(9, NEVER, TICKING);
    let (piece, text) = gone_on(&mut world, &mut left, 500);
    assert_eq!(text, "(tick 1)\n(tick 1)\n");
    assert_eq!(piece.map(|piece| piece.full), Ok(false));
    assert_eq!((left.step, world.run.time), (2, 24));
}

#[test]
fn of_equal_messages_the_first_leaves() {
    let mut world = World::opened(&usual(&[]));
    world.run.time = 5;
    // Place 3 is drawn, a vote of processor 1; another stands in place 0.
    world.put(0, [2, 0, 1, 5]);
    let mut left = load(1, NEVER, 1);
    let (_, text) = gone_on(&mut world, &mut left, 500);
    assert_eq!(text, "(deliver (vote 0 1))\n");
    assert_eq!(
        (world.held()[0], world.held()[2]),
        ([2, 0, 0, 0], [2, 0, 1, 0])
    );
}

#[test]
fn settling_is_due_once() {
    let mut world = World::opened(&usual(&[]));
    world.run.settled = true;
    let mut left = load(1, 0, 1);
    assert_eq!(
        gone_on(&mut world, &mut left, 500).1,
        "(deliver (vote 0 1))\n"
    );
    let mut left = Load {
        step: 4,
        ..load(4, 4, 1)
    };
    assert_eq!(gone_on(&mut world, &mut left, 500).1, "");
    assert_eq!((left.step, left.seed), (4, 1));
}

#[test]
fn pieces_are_those_of_one_call() {
    let mut draws = Draws(72);
    for _ in 0..300 {
        let setup = drawn(&mut draws);
        let steps = draws.one_of(&[0, 1, 20, 300]);
        let made = load(steps, draws.below(400), draws.any());
        let (mut whole, mut at_once) = (World::lent(3_600, 2_048), made);
        let (_, text) = begun(&mut whole, &setup, &mut at_once, 1 << 20);
        let (mut world, mut left) = (World::lent(3_600, 2_048), made);
        let room = 700 + draws.below(100) as usize;
        let (mut piece, mut pieces) = begun(&mut world, &setup, &mut left, room);
        while piece.expect("it is opened").full {
            let room = draws.below(60) as usize;
            let more;
            (piece, more) = gone_on(&mut world, &mut left, room);
            pieces += &more;
        }
        assert!(pieces == text && world == whole && left == at_once);
    }
}
