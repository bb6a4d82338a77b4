//! The words of calls for loads: an opening, the steps, the settling step and a
//! seed; and words that are wrong.

use crate::damage;
use crate::draws::Draws;
use crate::load_counts::Loads;
use crate::openings;
use crate::retell::Told;
use crate::schedules::NO_HEADINGS;
use crate::text;
use reference::{Load, Plan, Setup};

/// The words of one call.
pub type Words = Vec<Vec<u8>>;

/// The views that the program's lent words are enough for.
const MOST_VIEWS: u64 = 900;
/// The steps of a long load, at most; what the program writes at once holds
/// the lines of some thousands.
const MOST_STEPS: u64 = 30_000;
/// The steps of a load that a delivery may end before.
const ENDING_STEPS: u64 = 5_000;

/// The words for a short load, or for an opening that is refused.
pub fn short(draws: &mut Draws) -> Words {
    let setup = setup(draws);
    let line = line(&setup, draws);
    let opening = match draws.below(20) {
        0 => damage::damaged(&line, draws),
        1 => no_opening(draws),
        2 => text::headed(draws.one_of(&NO_HEADINGS), &setup, setup.plan.n as usize),
        _ => line,
    };
    let (few, some) = (draws.below(20), draws.below(300));
    let steps = draws.one_of(&[0, 1, few, some, some, some]);
    let load = load(steps, draws);
    words(without_zeros(opening), &load)
}

/// The words for a load that the program writes in several pieces.
pub fn long(draws: &mut Draws) -> Words {
    let n = draws.one_of(&[4, 4, 7, 10, 16]);
    let plan = Plan {
        n,
        delta: draws.one_of(&[1, 30, 1_000]),
        gamma: draws.one_of(&[2_000, 10_000]),
        views: MOST_VIEWS,
        k: Plan::VIEWS_PER_LEADER,
    };
    let plan = openings::with_turns(plan, openings::per_leader(draws));
    let mut setup = openings::accepted_of(draws, plan);
    if draws.per_mille(800) {
        // Under a faulty leader nothing is sent, so that the views last.
        setup.faulty = 1 << draws.below(n);
        setup.clocks.fill(draws.below(plan.gamma));
    }
    let steps = draws.between(MOST_STEPS / 4, MOST_STEPS);
    let load = load(steps, draws);
    words(line(&setup, draws), &load)
}

/// The words for a load that a delivery may end: of many processors that send
/// about as much as is delivered, or of few views. Where the network settles
/// just before that, it may be the delivery of an overdue message.
pub fn ending(draws: &mut Draws) -> Words {
    let few_views = draws.per_mille(400);
    let plan = Plan {
        n: draws.one_of(if few_views {
            &[4, 5, 7, 10]
        } else {
            &[48, 55, 60, 60, 64]
        }),
        delta: 1,
        gamma: if few_views {
            10_000
        } else {
            draws.one_of(&[14, 16, 16, 18, 20, 20])
        },
        views: if few_views { 3 } else { 300 },
        k: Plan::VIEWS_PER_LEADER,
    };
    let plan = openings::with_turns(plan, openings::per_leader(draws));
    let setup = openings::accepted_of(draws, plan);
    let mut load = Load {
        steps: ENDING_STEPS,
        settle: u64::MAX,
        seed: draws.any(),
        step: 0,
    };
    // Where there are few views, an overdue message seldom is the one to end it.
    if draws.per_mille(if few_views { 900 } else { 400 }) {
        let mut told = Told::of_program(load);
        told.begin(&setup, usize::MAX, &mut Loads::default());
        load.settle = told.load.step.saturating_sub(draws.below(30));
    }
    words(line(&setup, draws), &load)
}

/// A load with a settling step below, at or above its steps.
fn load(steps: u64, draws: &mut Draws) -> Load {
    let (below, early, edge) = (draws.below(steps), draws.below(9), draws.edge());
    let last = steps.saturating_sub(1);
    let settle = draws.one_of(&[0, early, below, below, last, steps, edge]);
    let (any, edge) = (draws.any(), draws.edge());
    Load {
        steps,
        settle,
        seed: draws.one_of(&[any, any, edge]),
        step: 0,
    }
}

/// The words of a call.
fn words(opening: Vec<u8>, load: &Load) -> Words {
    let numbers = [load.steps, load.settle, load.seed];
    let numbers = numbers.map(|number| number.to_string().into_bytes());
    [vec![opening], numbers.to_vec()].concat()
}

/// The line of a setup, with k or without.
fn line(setup: &Setup, draws: &mut Draws) -> Vec<u8> {
    let heading = openings::heading(setup, draws);
    text::headed(heading, setup, setup.plan.n as usize)
}

/// A setup: any that opens, one in which a load ends soon, or one that is
/// refused.
fn setup(draws: &mut Draws) -> Setup {
    let ((delta, gamma, views), n) = match draws.below(12) {
        0..=4 => return openings::accepted(draws, MOST_VIEWS),
        5..=7 => return openings::refused(draws, MOST_VIEWS),
        // Certificates come to the last view before the clocks do.
        8 => ((1_000, 10_000, 3), draws.one_of(&[4, 4, 5, 7])),
        9 => ((1, 10_000, 3), draws.one_of(&[4, 4, 5, 7])),
        // The clocks come there first.
        10 => ((1, 9, 3), draws.one_of(&[4, 7, 64])),
        // Much more is sent than is delivered.
        _ => ((1, draws.one_of(&[2, 9]), 300), 64),
    };
    let plan = Plan {
        n,
        delta,
        gamma,
        views,
        k: Plan::VIEWS_PER_LEADER,
    };
    let plan = openings::with_turns(plan, openings::per_leader(draws));
    openings::accepted_of(draws, plan)
}

/// A word that is no opening.
fn no_opening(draws: &mut Draws) -> Vec<u8> {
    match draws.below(5) {
        0 => b"(settle)".to_vec(),
        1 => b"(tick 1)".to_vec(),
        2 => Vec::new(),
        3 => damage::long(draws),
        _ => damage::noise(draws),
    }
}

/// A word of a call cannot hold a zero byte.
fn without_zeros(mut word: Vec<u8>) -> Vec<u8> {
    word.retain(|&byte| byte != 0);
    word
}

/// Numbers as the program does not take them.
const NO_NUMBERS: [&[u8]; 16] = [
    b"",
    b"00",
    b"01",
    b"-0",
    b"-1",
    b"+1",
    b" 1",
    b"1 ",
    b"1\n",
    b"1x",
    b"0x1",
    b"1.0",
    b"18446744073709551616",
    b"99999999999999999999",
    b"184467440737095516150",
    b"\xFF",
];

/// Words that are wrong: a number that is none, or too few or too many words.
pub fn wrong(draws: &mut Draws) -> Words {
    let setup = openings::accepted(draws, MOST_VIEWS);
    let steps = draws.below(20);
    let load = load(steps, draws);
    let mut words = words(line(&setup, draws), &load);
    match draws.below(8) {
        0 => words.truncate(draws.place(words.len())),
        1 => drop(words.remove(draws.place(words.len()))),
        2 => words.push(draws.one_of(&[&b""[..], b"0", b"1"]).to_vec()),
        _ => words[draws.between(1, 3) as usize] = draws.one_of(&NO_NUMBERS).to_vec(),
    }
    words
}
