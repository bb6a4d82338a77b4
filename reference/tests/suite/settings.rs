//! "Settings worth trying".

use crate::common::{opening, setup, usual, World, USUAL};
use reference::{step, Answer, Event, Input, Plan, Processor, Stepped};

const OPENED: Answer = Answer::Done { ticks: 0, held: 8 };

#[test]
fn t_of_some_n() {
    let t = |n| Plan { n, ..USUAL }.tolerance();
    assert_eq!([t(4), t(6), t(7), t(64)], [1, 1, 2, 21]);
}

#[test]
fn leaders_of_some_views() {
    assert_eq!(USUAL.lead(3), 1);
    assert_eq!(Plan { views: 15, ..USUAL }.lead(12), 0);
}

#[test]
fn start_clocks() {
    assert_eq!(opening(&usual(&[4, 0, 0, 0])), OPENED);
    assert_eq!(opening(&usual(&[5, 0, 0, 0])), Answer::Refused(8));
    assert_eq!(opening(&usual(&[9, 9, 0, 0])), OPENED);
    let faulty = setup(USUAL, 2, &[9, 9, 0, 0]);
    assert_eq!(opening(&faulty), Answer::Refused(8));
}

#[test]
fn clocks_all_11_and_one_tick() {
    let mut world = World::opened(&usual(&[11; 4]));
    let answer = world.apply(Event::Tick(1));
    assert_eq!(answer, Answer::Done { ticks: 1, held: 16 });
    assert_eq!(world.run.views[..4], [3; 4]);
    assert_eq!(world.run.clocks[..4], [12; 4]);
    let sent: Vec<[u64; 4]> = (0..4).flat_map(|p| [[1, 3, p, 1], [2, 3, p, 1]]).collect();
    assert_eq!(world.held()[8..], sent);
    assert_eq!(world.tally[12..16], [15, 0, 0, 0]);
}

#[test]
fn clocks_all_12() {
    assert_eq!(opening(&usual(&[12; 4])), Answer::Refused(7));
}

/// One step of processor 2 of the usual plan: what it answers, and its view
/// and clock after it.
fn stepped(view: u64, clock: u64, input: Input) -> (Stepped, u64, u64) {
    let mut processor = Processor {
        number: 2,
        clock,
        view,
    };
    let answer = step(USUAL, &mut processor, input);
    (answer, processor.view, processor.clock)
}

#[test]
fn steps_of_one_processor() {
    assert_eq!(
        stepped(0, 2, Input::Qc(2)),
        (Stepped::ViewAndVote(3), 3, 12)
    );
    assert_eq!(stepped(0, 6, Input::Qc(0)), (Stepped::Vote(1), 1, 6));
    assert_eq!(stepped(3, 12, Input::Vc(3)), (Stepped::Nothing, 3, 12));
    assert_eq!(stepped(0, 2, Input::Qc(5)), (Stepped::Refused(17), 0, 2));
}

#[test]
fn delay_and_slot() {
    let with = |gamma| {
        let plan = Plan {
            delta: 4,
            gamma,
            ..USUAL
        };
        opening(&setup(plan, 0, &[0; 4]))
    };
    assert_eq!(with(7), Answer::Refused(3));
    assert_eq!(with(8), OPENED);
}
