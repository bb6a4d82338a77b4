//! What is counted, and what is lacking.

use super::*;

impl Turns {
    /// Counts of which each is so much.
    pub fn met_everywhere(times: u64) -> Self {
        Self {
            opened: [times; 9],
            late: times,
            refused: [times; 8],
            lines: [times; 4],
            rewritten: times,
            due: [times; 9],
            due_at_edge: times,
            unsound: times,
            stepped: [times; 9],
            unstepped: times,
        }
    }
}

#[test]
fn what_is_lacking_is_told() {
    let enough = Turns::met_everywhere(2);
    let all = |turns: &Turns| {
        [
            turns.program_lacks(2),
            turns.loads_lack(2),
            turns.library_lacks(2),
        ]
    };
    assert_eq!(all(&enough), [None, None, None]);
    let lacks = |spoil: fn(&mut Turns), told: [Option<&str>; 3]| {
        let mut turns = enough.clone();
        spoil(&mut turns);
        assert_eq!(all(&turns).each_ref().map(|told| told.as_deref()), told);
    };
    let (every, both) = (
        |told| [Some(told); 3],
        |told| [Some(told), None, Some(told)],
    );
    let library = |told| [None, None, Some(told)];
    lacks(|turns| turns.opened[2] = 1, every("1 openings with 2"));
    lacks(|turns| turns.opened[8] = 0, every("0 openings with 8"));
    lacks(
        |turns| turns.lines[0] = 1,
        every("1 lines refused with four numbers"),
    );
    lacks(|turns| turns.lines[1] = 0, every("0 lines taken without k"));
    lacks(
        |turns| turns.lines[3] = 0,
        every("0 lines refused with seven numbers"),
    );
    lacks(|turns| turns.due[5] = 1, both("1 lists due with 5"));
    lacks(
        |turns| turns.due_at_edge = 0,
        both("0 due with just four delays"),
    );
    lacks(
        |turns| turns.late = 0,
        both("0 start clocks of three slots"),
    );
    let told = "0 openings refused, a slot too short for two";
    lacks(|turns| turns.refused[0] = 0, both(told));
    lacks(
        |turns| turns.refused[4] = 1,
        both("1 openings refused, nine"),
    );
    lacks(
        |turns| turns.rewritten = 1,
        library("1 lines without k written again"),
    );
    lacks(
        |turns| turns.unsound = 0,
        library("0 runs unsound for them"),
    );
    lacks(|turns| turns.stepped[7] = 0, library("0 steps with 7"));
    let told = "0 steps refused with others than 2 to 8";
    lacks(|turns| turns.unstepped = 0, library(told));
    // 0, 1 and what is above 8 need not be met.
    lacks(|turns| turns.opened[..2].fill(0), [None, None, None]);
    let mut twice = enough.clone();
    twice.add(&enough);
    assert_eq!(twice.program_lacks(4).or(twice.library_lacks(4)), None);
}

/// n=4 and delta 2, all clocks alike, the last processor faulty.
fn setup(gamma: u64, views: u64, k: u64, clock: u64) -> Setup {
    let plan = Plan {
        n: 4,
        delta: 2,
        gamma,
        views,
        k,
    };
    let mut clocks = [clock; 64];
    clocks[3] = u64::MAX;
    Setup {
        plan,
        faulty: 8,
        clocks,
    }
}

#[test]
fn refusals_are_those_that_the_views_per_leader_make() {
    for (setup, check, expected) in [
        (setup(4, 6, 2, 0), 3, &[Refusal::Slot][..]),
        (setup(7, 6, 2, 0), 3, &[Refusal::Slot, Refusal::SlotEdge]),
        (setup(3, 6, 2, 0), 3, &[]),
        (setup(7, 6, 3, 0), 3, &[]),
        (setup(8, 6, 0, 0), 4, &[Refusal::None]),
        (setup(8, 6, 1, 0), 4, &[Refusal::One]),
        (setup(8, 9, 9, 0), 4, &[Refusal::Nine]),
        (setup(8, 6, 9, 0), 4, &[]),
        (setup(8, 6, u64::MAX, 0), 4, &[Refusal::More]),
        (setup(8, 6_003, 1, 0), 4, &[]),
        (setup(8, 6, 4, 0), 4, &[Refusal::Limit]),
        (setup(8, 7, 4, 0), 4, &[]),
        (setup(8, 6, 2, 16), 7, &[Refusal::Start]),
        (setup(8, 6, 2, 24), 7, &[]),
        (setup(8, 6, 3, 24), 7, &[]),
    ] {
        assert_eq!(refusals(&setup, check), expected, "{setup:?}");
        assert_eq!(refusals(&setup, 0), []);
    }
}

#[test]
fn openings_lines_lists_and_steps_are_counted() {
    let mut turns = Turns::default();
    assert_eq!(turns.to_string(), "");
    turns.opening(&setup(8, 6, 2, 15), 0);
    turns.opening(&setup(4, 10, 5, 12), 0);
    turns.opening(&setup(7, 6, 2, 0), 3);
    for (line, taken) in [
        ("(open 1 2 4 6 (0))", false),
        ("(open 1 2 4 6 0 (0))", true),
        ("(open 1 2 4 6 0 (0))", false),
        ("(open 1 2 4 6 3 0 (0))", true),
        ("(open 1 2 4 6 3 0 0 (0))", false),
        ("(open 1 2 4 6 3 0 0 0 (0))", false),
        ("(open 1 (0))", false),
        ("(tick 1)", true),
    ] {
        turns.line(line.as_bytes(), taken);
    }
    turns.due(setup(8, 6, 2, 0).plan);
    turns.due(setup(9, 6, 2, 0).plan);
    turns.step(setup(8, 6, 8, 0).plan, 0);
    for (k, check) in [(9, 9), (u64::MAX, 9), (8, 9), (8, 17), (9, 10)] {
        turns.step(setup(8, 6, k, 0).plan, check);
    }
    assert_eq!((turns.opened[2], turns.opened[5], turns.late), (1, 1, 1));
    assert_eq!((turns.lines, turns.refused[1]), ([1; 4], 1));
    assert_eq!((turns.due[2], turns.due_at_edge), (2, 1));
    assert_eq!((turns.stepped[8], turns.unstepped), (1, 2));
    let told = "  views per leader: openings: 2: 1, 5: 1\n  \
                views per leader: lists due: 2: 2\n  views per leader: steps: 8: 1\n  \
                views per leader: refused, a slot too short for two: 1, \
                refused, a slot one tick too short for two: 1, refused with four numbers: 1, \
                taken without k: 1, taken with k: 1, refused with seven numbers: 1, \
                start clocks of three slots: 1, due with just four delays: 1, \
                steps refused for them: 2\n";
    assert_eq!(turns.to_string(), told);
}
