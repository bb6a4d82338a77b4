//! How processors move, and "What goes wrong in copies of Fever".

use crate::common::{setup, usual, World, USUAL};
use reference::Event::{Deliver, Settle, Show, Sign, Tick};
use reference::Message::{Qc, Vc, View, Vote};
use reference::{Answer, Plan};

#[test]
fn the_opening_sends_by_rising_number_view_before_vote() {
    let world = World::opened(&setup(USUAL, 4, &[0; 4]));
    let sent: Vec<[u64; 4]> = [0, 1, 3]
        .into_iter()
        .flat_map(|p| [[1, 0, p, 0], [2, 0, p, 0]])
        .collect();
    assert_eq!(world.held(), sent);
    assert_eq!(world.tally[0], 0b1011);
}

#[test]
fn delivery_closes_up_and_takes_the_first_of_equal_ones() {
    let mut world = World::opened(&usual(&[0; 4]));
    world.must(Tick(1));
    world.put(8, [1, 0, 1, 1]);
    world.run.held = 9;
    let mut expected = world.held();
    world.must(Deliver(View(0, 1)));
    expected.remove(2);
    assert_eq!(world.held(), expected);
    assert!(world.network[16..].iter().all(|&word| word == 0));
    assert_eq!(world.held()[7], [1, 0, 1, 1]);
}

#[test]
fn a_signer_counts_once() {
    let mut world = World::opened(&setup(USUAL, 8, &[0; 4]));
    for _ in 0..3 {
        world.must(Sign(View(0, 3)));
        world.must(Sign(Vote(0, 3)));
    }
    assert_eq!(world.tally[..4], [0b111, 0b1000, 0b1000, 0]);
    assert_eq!(world.run.held, 6);
}

#[test]
fn certificates_are_formed_once_and_sent_to_every_correct_one() {
    let mut world = World::opened(&setup(USUAL, 8, &[0; 4]));
    world.must(Sign(View(0, 3)));
    world.must(Tick(1));
    world.must(Deliver(View(0, 2)));
    assert_eq!(world.tally[..4], [0b111, 0b1100, 0, 1]);
    let sent: Vec<[u64; 4]> = (0..3).map(|p| [3, 0, p, 1]).collect();
    assert_eq!(world.held()[5..], sent);
    world.must(Deliver(View(0, 1)));
    assert_eq!(world.run.held, 7);
    world.must(Deliver(Vote(0, 1)));
    world.must(Sign(Vote(0, 3)));
    assert_eq!(world.tally[3], 1);
    world.must(Deliver(Vote(0, 0)));
    assert_eq!(world.tally[..4], [0b111, 0b1110, 0b1011, 3]);
    let formed: Vec<[u64; 4]> = (0..3).map(|p| [4, 0, p, 1]).collect();
    assert_eq!(world.held()[5..], formed);
}

#[test]
fn a_certificate_moves_no_clock_backward() {
    let mut world = World::opened(&usual(&[6, 6, 0, 0]));
    world.tally[3] = 2;
    world.must(Show(Qc(0, 0)));
    assert_eq!((world.run.views[0], world.run.clocks[0]), (1, 6));
    world.must(Show(Qc(0, 2)));
    assert_eq!((world.run.views[2], world.run.clocks[2]), (1, 4));
    assert_eq!(world.held()[8..], [[2, 1, 0, 0], [2, 1, 2, 0]]);
    assert_eq!(world.tally[4], 0b101);
}

#[test]
fn an_initial_view_entered_by_certificate_sends_its_view_message() {
    let mut world = World::opened(&usual(&[0; 4]));
    world.tally[4 * 2 + 3] = 2;
    world.tally[4 * 3 + 3] = 1;
    world.must(Show(Qc(2, 1)));
    world.must(Show(Vc(3, 2)));
    assert_eq!(world.run.clocks[..4], [0, 12, 12, 0]);
    let sent = [[1, 3, 1, 0], [2, 3, 1, 0], [1, 3, 2, 0], [2, 3, 2, 0]];
    assert_eq!(world.held()[8..], sent);
}

#[test]
fn no_view_certificate_for_a_view_the_leader_has_left() {
    let mut world = World::opened(&usual(&[0; 4]));
    world.tally[3] = 2;
    world.must(Show(Qc(0, 0)));
    for p in 0..4 {
        world.must(Deliver(View(0, p)));
    }
    assert_eq!(world.tally[..4], [15, 15, 0, 2]);
    assert_eq!(world.run.held, 5);
}

#[test]
fn a_quorum_certificate_whatever_the_leaders_view() {
    let mut world = World::opened(&usual(&[11; 4]));
    world.must(Tick(1));
    for p in 0..3 {
        world.must(Deliver(Vote(0, p)));
    }
    assert_eq!(world.tally[..4], [15, 0, 7, 2]);
    world.must(Deliver(Qc(0, 0)));
    assert_eq!(world.run.views[0], 3, "a certificate below the view");
}

#[test]
fn a_heard_set_handed_in_counts_as_it_is() {
    let mut world = World::opened(&usual(&[0; 4]));
    world.tally[1] = 1 << 63;
    world.tally[2] = 3 << 62;
    world.tally[3] = !3;
    world.must(Deliver(View(0, 0)));
    world.must(Deliver(Vote(0, 0)));
    assert_eq!(world.tally[3], u64::MAX);
    assert_eq!(world.run.held, 14);
}

#[test]
fn nothing_reaches_a_faulty_leader() {
    let plan = Plan { n: 5, ..USUAL };
    let mut world = World::opened(&setup(plan, 2, &[11; 5]));
    assert_eq!(world.run.held, 8);
    world.must(Tick(1));
    assert_eq!(world.run.held, 8);
    let before = world.clone();
    world.must(Sign(View(3, 1)));
    assert!(world == before);
}

#[test]
fn a_faulty_leaders_certificates_exist_by_the_entered_ones() {
    // Processor 0 leads view 0 and is faulty: f = 1, t+1 = 2, n−t = 3.
    let mut world = World::opened(&setup(USUAL, 1, &[0; 4]));
    world.must(Show(Qc(0, 1)));
    assert_eq!(world.run.views[..4], [0, 1, 0, 0]);
    world.refuses(Show(Qc(1, 1)), 14);
    world.must(Show(Qc(0, 2)));
    world.must(Show(Qc(1, 1)));
    assert_eq!(world.run.views[..4], [0, 2, 1, 0]);
    world.must(Show(Vc(0, 3)));
    assert_eq!(world.run.held, 0);
}

#[test]
fn overdue_from_the_later_of_sending_and_settling() {
    let mut world = World::opened(&usual(&[0; 4]));
    world.must(Tick(3));
    world.must(Settle);
    let stopped = Answer::Stopped {
        ticks: 2,
        held: 8,
        check: 16,
    };
    assert_eq!(world.apply(Tick(9)), stopped);
    for p in 0..4 {
        world.must(Deliver(View(0, p)));
    }
    // The view certificate was sent at time 5, the votes at 0.
    for p in 0..4 {
        world.refuses(Tick(1), 16);
        world.must(Deliver(Vote(0, p)));
    }
    let stopped = Answer::Stopped {
        ticks: 2,
        held: 8,
        check: 16,
    };
    assert_eq!(world.apply(Tick(9)), stopped);
}

#[test]
fn messages_sent_within_a_run_of_ticks_fall_due_in_it() {
    let mut world = World::opened(&usual(&[11; 4]));
    for p in 0..4 {
        world.must(Deliver(Vote(0, p)));
        world.must(Deliver(View(0, p)));
    }
    for p in 0..4 {
        world.must(Deliver(Vc(0, p)));
        world.must(Deliver(Qc(0, p)));
    }
    for p in 0..4 {
        world.must(Deliver(Vote(1, p)));
    }
    for p in 0..4 {
        world.must(Deliver(Qc(1, p)));
        world.must(Deliver(Vote(2, p)));
    }
    assert_eq!(world.run.held, 4);
    for p in 0..4 {
        world.must(Deliver(Qc(2, p)));
    }
    assert_eq!(world.run.views[..4], [3; 4]);
    for p in 0..4 {
        world.must(Deliver(View(3, p)));
        world.must(Deliver(Vote(3, p)));
    }
    for p in 0..4 {
        world.must(Deliver(Vc(3, p)));
    }
    world.must(Settle);
    assert_eq!(world.run.held, 4);
    let stopped = Answer::Stopped {
        ticks: 2,
        held: 4,
        check: 16,
    };
    assert_eq!(world.apply(Tick(9)), stopped);
}

#[test]
fn a_tick_enters_at_the_new_time_and_each_its_own_view() {
    let plan = Plan { views: 9, ..USUAL };
    let mut world = World::opened(&setup(plan, 0, &[11, 11, 10, 9]));
    world.tally[4 * 5 + 3] = 2;
    world.must(Show(Qc(5, 3)));
    assert_eq!(world.run.clocks[3], 24);
    world.must(Deliver(View(6, 3)));
    world.must(Deliver(Vote(6, 3)));
    world.must(Tick(2));
    assert_eq!(world.run.views[..4], [3, 3, 3, 6]);
    let sent = [
        [1, 3, 0, 1],
        [2, 3, 0, 1],
        [1, 3, 1, 1],
        [2, 3, 1, 1],
        [1, 3, 2, 2],
        [2, 3, 2, 2],
    ];
    assert_eq!(world.held()[8..], sent);
}
