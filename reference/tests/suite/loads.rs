//! Loads: what the seed chooses, and which events end them.

use crate::common::{setup, usual, Draws, World, USUAL};
use reference::{
    generate, generate_more, read_line, write_setup, Answer, Load, Piece, Plan, Reading, Setup,
};

/// A seed whose first ten draws all tick.
pub const TICKING: u64 = 409;
/// A seed whose first ten draws would all deliver if each were a step's first.
const DELIVERING: u64 = 787;
/// No settling.
pub const NEVER: u64 = u64::MAX;

pub const fn load(steps: u64, settle: u64, seed: u64) -> Load {
    Load {
        steps,
        settle,
        seed,
        step: 0,
    }
}

/// Begins a load in so many bytes; answers what was written too.
pub fn begun(
    world: &mut World,
    setup: &Setup,
    load: &mut Load,
    room: usize,
) -> (Result<Piece, u64>, String) {
    let mut out = vec![b'x'; room];
    let (run, tally, network) = (&mut world.run, &mut world.tally, &mut world.network);
    let piece = generate(setup, load, run, tally, network, &mut out);
    (piece, front(piece, &out))
}

/// Goes on with a load in so many bytes.
pub fn gone_on(world: &mut World, load: &mut Load, room: usize) -> (Result<Piece, u64>, String) {
    let mut out = vec![b'x'; room];
    let (run, tally, network) = (&mut world.run, &mut world.tally, &mut world.network);
    let piece = generate_more(load, run, tally, network, &mut out);
    (piece, front(piece, &out))
}

/// The bytes written; those behind them are as they were.
fn front(piece: Result<Piece, u64>, out: &[u8]) -> String {
    let (front, behind) = out.split_at(piece.map_or(0, |piece| piece.bytes));
    assert!(front.is_empty() || front.ends_with(b"\n"));
    assert!(behind.iter().all(|&byte| byte == b'x'));
    String::from_utf8_lossy(front).into_owned()
}

/// What is written behind the opening, with the program's words lent; the load
/// has ended.
fn lines(setup: &Setup, mut load: Load) -> (Vec<String>, Load, World) {
    let mut world = World::lent(3_600, 2_048);
    let (piece, text) = begun(&mut world, setup, &mut load, 1 << 20);
    assert!(!piece.expect("it is opened").full);
    let mut lines = text.lines().map(str::to_owned);
    assert_eq!(lines.next().as_deref(), Some(opening(setup).trim_end()));
    (lines.collect(), load, world)
}

pub fn opening(setup: &Setup) -> String {
    let mut out = [0; 1_461];
    let length = write_setup(setup, &mut out).expect("it has a form");
    String::from_utf8_lossy(&out[..length]).into_owned()
}

#[test]
fn the_first_draw_delivers_and_the_second_takes_a_message() {
    // 1817669548 and 2187888307 are the draws of seed 1: 0 mod 4, 3 mod 8.
    let (lines, left, world) = lines(&usual(&[]), load(1, NEVER, 1));
    assert_eq!(lines, ["(deliver (vote 0 1))"]);
    assert_eq!((left.seed, left.step), (9_396_908_728_118_811_419, 1));
    assert_eq!(world.held().len(), 7);
    // 2784682393 and 1644385741: 1 mod 4, 5 mod 7.
    let lines = self::lines(&usual(&[]), load(2, NEVER, 1)).0;
    assert_eq!(lines, ["(deliver (vote 0 1))", "(deliver (view 0 3))"]);
}

#[test]
fn a_tick_draws_once() {
    // 335903614 is the draw of seed 0: 2 mod 4.
    let (lines, left, world) = lines(&usual(&[]), load(1, NEVER, 0));
    assert_eq!(lines, ["(tick 1)"]);
    assert_eq!((left.seed, left.step), (1_442_695_040_888_963_407, 1));
    assert_eq!(world.run.time, 1);
}

#[test]
fn an_empty_network_gives_a_tick_and_no_second_draw() {
    let leaderless = setup(USUAL, 1, &[]);
    let (lines, left, world) = lines(&leaderless, load(10, NEVER, DELIVERING));
    assert_eq!(lines, ["(tick 1)"; 10]);
    assert_eq!((left.step, world.run.time, world.run.held), (10, 10, 0));
    let again = self::lines(&leaderless, load(10, NEVER, TICKING)).0;
    assert_eq!(lines, again);
}

#[test]
fn settling_stands_before_its_step_and_draws_nothing() {
    for settle in 0..3 {
        let (settled, left, world) = lines(&usual(&[]), load(3, settle, 1));
        let (mut plain, other, _) = lines(&usual(&[]), load(3, NEVER, 1));
        plain.insert(settle as usize, "(settle)".to_owned());
        assert_eq!((settled, left.seed), (plain, other.seed));
        assert!(world.run.settled);
    }
    for settle in [3, 4, NEVER] {
        let (lines, _, world) = lines(&usual(&[]), load(3, settle, 1));
        assert!(lines.len() == 3 && !world.run.settled);
    }
    let (lines, left, _) = lines(&usual(&[]), load(0, 0, 1));
    assert!(lines.is_empty() && left == load(0, 0, 1));
}

#[test]
fn an_overdue_tick_becomes_the_first_overdue_delivery() {
    let (lines, left, _) = lines(&usual(&[]), load(5, 0, TICKING));
    let expected = [
        "(settle)",
        "(tick 1)",
        "(tick 1)",
        "(deliver (view 0 0))",
        "(deliver (vote 0 0))",
        "(deliver (view 0 1))",
    ];
    assert_eq!(lines, expected);
    let (ticks, other, _) = self::lines(&usual(&[]), load(5, NEVER, TICKING));
    assert_eq!(
        (ticks, left.seed),
        (vec!["(tick 1)".to_owned(); 5], other.seed)
    );
}

#[test]
fn a_refused_tick_ends_the_load() {
    let short = setup(Plan { views: 3, ..USUAL }, 1, &[]);
    let (lines, left, world) = lines(&short, load(NEVER, NEVER, 5));
    // The twelfth tick would bring the clocks to the last clock time.
    assert_eq!((lines.len(), left.step, world.run.time), (11, 11, 11));
    let (_, before, _) = self::lines(&short, load(11, NEVER, 5));
    assert_eq!(left.seed, before.seed);
}

#[test]
fn a_refused_delivery_ends_the_load() {
    // The quorum certificate of the last view cannot be taken.
    let short = setup(
        Plan {
            views: 3,
            gamma: 10_000,
            ..USUAL
        },
        0,
        &[],
    );
    let (lines, left, world) = lines(&short, load(NEVER, NEVER, 3));
    assert_eq!(lines.len() as u64, left.step);
    let mut refused = (world.held().into_iter()).filter(|words| (words[0], words[1]) == (4, 2));
    assert!(refused.next().is_some());
    // Delivering a view message forms a certificate that has no room.
    let mut tight = World::lent(24, 16);
    let mut left = load(NEVER, NEVER, DELIVERING);
    let (piece, text) = begun(&mut tight, &usual(&[]), &mut left, 5_000);
    assert_eq!(piece.map(|piece| piece.full), Ok(false));
    assert_eq!(text.lines().count() as u64, 1 + left.step);
    assert!(tight.run.held > 4 && tight.run.time < 10);
}

/// A setup that opens with the program's words.
pub fn drawn(draws: &mut Draws) -> Setup {
    let n = draws.one_of(&[4, 5, 7, 10, 16, 64]);
    let k = 2 + draws.below(7);
    let gamma = draws.one_of(&[4, 8, 30, 500]);
    let delta = 1 + draws.below(gamma / if k == 2 { 4 } else { 2 });
    let plan = Plan {
        n,
        delta,
        gamma,
        views: k * draws.one_of(&[2, 6, 30, 112]),
        k,
    };
    let faulty = (1 << draws.below(plan.tolerance() + 1)) - 1;
    let mut clocks = [0; 64];
    clocks.fill_with(|| draws.below(gamma));
    setup(plan, faulty, &clocks)
}

#[test]
fn every_line_is_accepted_when_read_in_turn() {
    let mut draws = Draws(71);
    for _ in 0..300 {
        let setup = drawn(&mut draws);
        let steps = draws.one_of(&[0, 1, 20, 300]);
        let load = load(steps, draws.below(400), draws.any());
        let (lines, left, world) = lines(&setup, load);
        let mut again = World::opened(&setup);
        for line in &lines {
            let Reading::Event(event) = read_line(line.as_bytes()) else {
                panic!("{line} is no event");
            };
            assert!(matches!(again.apply(event), Answer::Done { .. }), "{line}");
        }
        assert!(again == world && world.is_sound());
        let settled = u64::from(world.run.settled);
        assert_eq!(lines.len() as u64, left.step + settled);
    }
}
