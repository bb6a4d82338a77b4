//! Each check refuses at least once, with nothing changed.

use crate::common::{setup, usual, World, USUAL};
use reference::Event::{Deliver, Settle, Show, Sign, Tick};
use reference::Message::{Qc, Vc, View, Vote};
use reference::{read_line, write_event, Answer, Event, Plan, Reading, Setup};

/// Refused so, run and lent words as before.
fn opening_refused(setup: &Setup, tally: usize, network: usize, check: u64) {
    let mut world = World::lent(tally, network);
    world.tally.fill(5);
    world.network.fill(6);
    world.run.time = 77;
    let before = world.clone();
    assert_eq!(world.open(setup), Answer::Refused(check));
    assert!(world == before);
}

/// The usual run with processor 3 faulty.
fn with_faulty() -> World {
    World::opened(&setup(USUAL, 8, &[0; 4]))
}

#[test]
fn check_1() {
    let formless = [
        Tick(0),
        Sign(Vc(0, 3)),
        Sign(Qc(0, 3)),
        Show(View(0, 0)),
        Show(Vote(0, 0)),
    ];
    for event in formless {
        with_faulty().refuses(event, 1);
        World::lent(0, 0).refuses(event, 1);
        let mut bytes = [9; 80];
        assert_eq!(write_event(event, &mut bytes), Err(1));
        assert_eq!(bytes, [9; 80]);
    }
    assert_eq!(read_line(b"(tick 0)"), Reading::NoForm);
}

#[test]
fn checks_2_to_8() {
    let clocks = [0; 4];
    let of = |plan, faulty| setup(plan, faulty, &clocks);
    opening_refused(&of(Plan { n: 3, ..USUAL }, 0), 24, 16, 2);
    opening_refused(&of(Plan { n: 65, ..USUAL }, 0), 24, 16, 2);
    opening_refused(&of(Plan { delta: 0, ..USUAL }, 0), 24, 16, 3);
    opening_refused(&of(Plan { gamma: 3, ..USUAL }, 0), 24, 16, 3);
    opening_refused(&of(Plan { views: 4, ..USUAL }, 0), 24, 16, 4);
    opening_refused(&of(USUAL, 16), 24, 16, 5);
    opening_refused(&of(USUAL, 3), 24, 16, 5);
    opening_refused(&of(USUAL, 0), 23, 16, 6);
    opening_refused(&of(USUAL, 0), 24, 15, 6);
    opening_refused(&usual(&[12, 12, 12, 12]), 24, 16, 7);
    opening_refused(&usual(&[5, 0, 0, 0]), 24, 16, 8);
}

/// Every form of event refuses by check 9 a run spoiled so.
fn unsound(spoil: impl Fn(&mut World)) {
    let events = [
        Deliver(View(0, 0)),
        Deliver(Qc(99, 99)),
        Sign(Vote(0, 3)),
        Show(Vc(0, 0)),
        Settle,
        Tick(1),
    ];
    for event in events {
        let mut world = with_faulty();
        world.must(Tick(1));
        assert!(world.is_sound());
        spoil(&mut world);
        assert!(!world.is_sound());
        world.refuses(event, 9);
    }
}

#[test]
fn check_9_limits() {
    unsound(|world| world.run.plan.n = 65);
    unsound(|world| world.run.plan.n = 0);
    unsound(|world| world.run.plan.delta = 3);
    unsound(|world| world.run.plan.gamma = u64::MAX);
    unsound(|world| world.run.plan.views = 6_003);
    unsound(|world| world.run.faulty = 12);
    unsound(|world| world.run.faulty = 1 << 63);
    unsound(|world| world.tally.truncate(23));
    unsound(|world| world.network.truncate(15));
    unsound(|world| world.network.resize(524_289, 0));
}

#[test]
fn check_9_clocks_and_times() {
    unsound(|world| world.run.time = 24);
    unsound(|world| world.run.time = u64::MAX);
    unsound(|world| world.run.clocks[0] = 24);
    unsound(|world| world.run.clocks[2] = u64::MAX);
    unsound(|world| world.run.clocks[1] = 12);
    unsound(|world| world.run.views[1] = 1);
    unsound(|world| world.run.views[1] = 1 << 62);
    unsound(|world| world.run.views[1] = u64::MAX);
    unsound(|world| world.run.gst = 1);
    unsound(|world| (world.run.settled, world.run.gst) = (true, 2));
}

#[test]
fn check_9_messages() {
    unsound(|world| world.run.held = 1_025);
    unsound(|world| world.run.held = u64::MAX);
    unsound(|world| world.run.held = 1 << 63);
    unsound(|world| world.run.held = 5);
    // Kinds 5 to 8, that is 4 to 7 in the three bits of the kind.
    unsound(|world| world.network[0] = 256);
    unsound(|world| world.network[0] = 257);
    unsound(|world| world.network[0] = 5 * 64);
    unsound(|world| world.network[0] = 6 * 64 + 2);
    unsound(|world| world.network[0] = 511);
    // Views 6 and 9, and views whose word nears 2^64.
    unsound(|world| world.put(0, [2, 6, 0, 0]));
    unsound(|world| world.put(0, [1, 9, 0, 0]));
    unsound(|world| world.network[0] = 1 << 63);
    unsound(|world| world.network[0] = u64::MAX);
    // Processors 4 and 63, and a sending time later than now.
    unsound(|world| world.network[0] = 4);
    unsound(|world| world.network[0] = 64 + 63);
    unsound(|world| world.network[1] = 2);
    unsound(|world| world.put(0, [3, 0, 3, 0]));
    unsound(|world| world.network[12] = 1);
    unsound(|world| world.network[13] = 1);
    unsound(|world| *world.network.last_mut().unwrap() = 1);
    unsound(|world| world.network.push(1));
}

/// Words 0 and 0 are a message, the view message of processor 0 for view 0
/// sent at 0: only the number held says what is a message.
#[test]
fn words_of_0_are_a_message() {
    let mut world = with_faulty();
    assert_eq!(world.network[..4], [0, 0, 64, 0]);
    assert_eq!(world.held()[..2], [[1, 0, 0, 0], [2, 0, 0, 0]]);
    world.run.held = 1_024;
    assert!(world.is_sound());
    world.must(Tick(1));
    world.network[0..2].copy_from_slice(&[1, 0]);
    world.must(Deliver(View(0, 0)));
    assert_eq!((world.run.held, world.run.sums.waits), (1_023, 1));
    // Three certificates in place of one message are one too many.
    world.refuses(Deliver(View(0, 1)), 18);
    world.must(Deliver(View(0, 0)));
    world.must(Deliver(View(0, 1)));
    assert_eq!(world.run.held, 1_024);
}

#[test]
fn what_check_9_leaves_alone() {
    let mut world = with_faulty();
    world.must(Tick(1));
    // Clocks and views that are not read, any tally, sending times in any
    // order, a faulty sender, a view message for a view not initial.
    world.run.clocks[3..].fill(u64::MAX);
    world.run.views[3..].fill(u64::MAX);
    world.tally.fill(u64::MAX);
    world.put(0, [1, 0, 3, 1]);
    world.put(1, [1, 1, 0, 0]);
    world.network.push(0);
    assert!(world.is_sound());
    (world.run.settled, world.run.gst) = (true, 1);
    assert!(world.is_sound());
    world.must(Tick(1));
    world.refuses(Deliver(View(1, 0)), 11);
    assert_eq!(world.run.clocks[3..], [u64::MAX; 61]);
}

#[test]
fn check_10() {
    let mut world = with_faulty();
    for big in [6, u64::MAX] {
        world.refuses(Deliver(View(big, 0)), 10);
        world.refuses(Deliver(Vote(0, big)), 10);
        world.refuses(Sign(Vote(big, 3)), 10);
        world.refuses(Sign(View(0, big)), 10);
        world.refuses(Show(Qc(big, 0)), 10);
        world.refuses(Show(Vc(0, big)), 10);
    }
    world.refuses(Deliver(Vc(1, 4)), 10);
}

#[test]
fn check_11() {
    let mut world = with_faulty();
    let not_initial: [Event; 4] = [
        Deliver(View(1, 0)),
        Deliver(Vc(2, 0)),
        Sign(View(4, 0)),
        Show(Vc(5, 3)),
    ];
    for event in not_initial {
        world.refuses(event, 11);
    }
}

#[test]
fn check_12() {
    let mut world = with_faulty();
    world.refuses(Sign(View(0, 0)), 12);
    world.refuses(Sign(Vote(1, 2)), 12);
    world.refuses(Show(Vc(0, 3)), 12);
    world.refuses(Show(Qc(1, 3)), 12);
}

#[test]
fn check_13() {
    let mut world = with_faulty();
    world.refuses(Deliver(View(0, 3)), 13);
    world.refuses(Deliver(Vc(0, 0)), 13);
    world.refuses(Deliver(Qc(5, 0)), 13);
    world.must(Deliver(View(0, 0)));
    world.refuses(Deliver(View(0, 0)), 13);
}

#[test]
fn check_14() {
    let mut world = with_faulty();
    world.refuses(Show(Vc(0, 0)), 14);
    world.refuses(Show(Qc(0, 0)), 14);
    world.refuses(Show(Qc(5, 0)), 14);
    world.must(Deliver(View(0, 0)));
    world.must(Sign(View(0, 3)));
    world.must(Show(Vc(0, 0)));
    world.refuses(Show(Qc(0, 0)), 14);
}

#[test]
fn check_15() {
    let mut world = with_faulty();
    world.must(Settle);
    world.refuses(Settle, 15);
}

#[test]
fn check_16() {
    let mut world = with_faulty();
    world.must(Settle);
    world.must(Tick(2));
    world.refuses(Tick(1), 16);
}

#[test]
fn check_17() {
    let mut world = World::opened(&setup(Plan { views: 3, ..USUAL }, 0, &[10, 11, 0, 0]));
    world.refuses(Tick(1), 17);
    world.tally[4 * 2 + 3] = 2;
    world.refuses(Show(Qc(2, 2)), 17);
}

#[test]
fn check_18() {
    let mut world = World::lent(24, 17);
    assert_eq!(
        world.open(&usual(&[11; 4])),
        Answer::Done { ticks: 0, held: 8 }
    );
    world.refuses(Tick(1), 18);
    world.tally[4 * 2 + 3] = 2;
    world.refuses(Show(Qc(2, 1)), 18);
    world.must(Deliver(View(0, 0)));
    // 7 held, and 4 view certificates in place of the next view message.
    world.refuses(Deliver(View(0, 1)), 18);
    world.refuses(Show(Qc(2, 1)), 18);
    world.must(Deliver(Vote(0, 0)));
    world.must(Show(Qc(2, 1)));
    assert_eq!(world.run.held, 8);
}

#[test]
fn check_18_of_a_signature() {
    let mut world = World::lent(24, 16);
    let faulty = setup(USUAL, 8, &[0; 4]);
    assert_eq!(world.open(&faulty), Answer::Done { ticks: 0, held: 6 });
    world.tally[1] = 1;
    world.refuses(Sign(View(0, 3)), 18);
    world.must(Deliver(Vote(0, 0)));
    world.must(Sign(View(0, 3)));
    assert_eq!(world.run.held, 8);
}
