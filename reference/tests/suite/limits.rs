//! Edges of the limits, of openings, steps and handed-in runs.

use crate::common::{opening, setup, usual, World, USUAL};
use reference::{step, Answer, Event, Input, Message, Plan, Processor, Stepped};

/// The check that refuses an opening with all clocks 0, 0 if none does.
fn refusal(plan: Plan, faulty: u64, tally: usize, network: usize) -> u64 {
    let mut world = World::lent(tally, network);
    match world.open(&setup(plan, faulty, &[])) {
        Answer::Refused(check) => check,
        _ => 0,
    }
}

fn of_plan(plan: Plan) -> u64 {
    refusal(plan, 0, 24_000, 512)
}

#[test]
fn processors_4_to_64() {
    let with = |n| of_plan(Plan { n, ..USUAL });
    let checks = [0, 1, 3, 4, 64, 65, u64::MAX].map(with);
    assert_eq!(checks, [2, 2, 2, 0, 0, 2, 2]);
}

#[test]
fn delay_1_to_1000_and_slot_from_twice_it_to_10000() {
    let with = |(delta, gamma)| {
        of_plan(Plan {
            delta,
            gamma,
            ..USUAL
        })
    };
    let good = [(1, 2), (1, 10_000), (1_000, 2_000), (1_000, 10_000)];
    assert_eq!(good.map(with), [0; 4]);
    let bad = [
        (0, 4),
        (1, 1),
        (1, 10_001),
        (1_000, 1_999),
        (1_001, 10_000),
        (1 << 63, 0),
        (u64::MAX, u64::MAX),
        (1, u64::MAX),
    ];
    assert_eq!(bad.map(with), [3; 8]);
}

#[test]
fn views_3_to_6000_by_threes() {
    let with = |views| of_plan(Plan { views, ..USUAL });
    let checks = [0, 2, 3, 4, 6, 5_999, 6_000, 6_003, u64::MAX].map(with);
    assert_eq!(checks, [4, 4, 0, 4, 0, 4, 0, 4, 4]);
}

#[test]
fn faulty_below_n_and_at_most_t() {
    let with = |n, faulty| refusal(Plan { n, ..USUAL }, faulty, 24, 512);
    assert_eq!([with(4, 8), with(4, 16), with(4, 3)], [0, 5, 5]);
    assert_eq!([with(7, 0b101), with(7, 0b111), with(7, 1 << 7)], [0, 5, 5]);
    let most = (1 << 21) - 1;
    assert_eq!([with(64, most), with(64, most << 43)], [0, 0]);
    assert_eq!([with(64, most | 1 << 63), with(64, u64::MAX)], [5, 5]);
}

#[test]
fn lent_words() {
    let with = |tally, network| refusal(USUAL, 0, tally, network);
    assert_eq!([with(24, 16), with(23, 16), with(24, 15)], [0, 6, 6]);
    assert_eq!(
        [with(24, 524_288), with(24, 524_289), with(0, 0)],
        [0, 6, 6]
    );
}

#[test]
fn the_first_failing_check_is_the_one_answered() {
    let all_wrong = Plan {
        n: 3,
        delta: 0,
        gamma: 0,
        views: 0,
        k: 0,
    };
    assert_eq!(refusal(all_wrong, u64::MAX, 0, 0), 2);
    assert_eq!(refusal(Plan { n: 4, ..all_wrong }, u64::MAX, 0, 0), 3);
    let no_views = Plan { views: 0, ..USUAL };
    assert_eq!(refusal(no_views, u64::MAX, 0, 0), 4);
    assert_eq!(refusal(USUAL, u64::MAX, 0, 0), 5);
    assert_eq!(refusal(USUAL, 0, 0, 0), 6);
}

#[test]
fn start_clocks_of_faulty_processors_are_not_read() {
    let wild = [u64::MAX, 0, 0, 0, u64::MAX];
    assert_eq!(opening(&usual(&wild)), Answer::Refused(7));
    let mut world = World::opened(&setup(USUAL, 1, &wild));
    assert_eq!(world.run.held, 0, "the leader of view 0 is faulty");
    assert_eq!(world.run.clocks, [0; 64]);
    world.must(Event::Tick(1));
    assert_eq!(world.run.clocks[..5], [0, 1, 1, 1, 0]);
}

#[test]
fn clock_11_is_the_last_start_clock() {
    assert_eq!(
        opening(&usual(&[11, 11, 0, 0])),
        Answer::Done { ticks: 0, held: 8 }
    );
    assert_eq!(opening(&usual(&[12, 11, 0, 0])), Answer::Refused(7));
    assert_eq!(opening(&usual(&[u64::MAX; 4])), Answer::Refused(7));
}

#[test]
fn an_opening_zeroes_just_its_own_words() {
    let mut world = World::lent(30, 19);
    world.tally.fill(7);
    world.network.fill(7);
    assert!(matches!(world.open(&usual(&[0; 4])), Answer::Done { .. }));
    assert_eq!(world.tally[..8], [15, 0, 0, 0, 0, 0, 0, 0]);
    assert_eq!(world.tally[24..], [7; 6]);
    assert_eq!(world.held().len(), 8);
    assert_eq!(world.network[16..], [0; 3]);
    assert!(world.is_sound());
}

#[test]
fn clocks_up_to_the_last_and_no_further() {
    let mut world = World::opened(&usual(&[0; 4]));
    let answer = world.apply(Event::Tick(u64::MAX));
    let stopped = Answer::Stopped {
        ticks: 23,
        held: 16,
        check: 17,
    };
    assert_eq!(answer, stopped);
    assert_eq!(world.run.time, 23);
    world.refuses(Event::Tick(1), 17);
    assert_eq!(world.run.views[..4], [3; 4]);
}

#[test]
fn edges_of_a_step() {
    let at = |plan: Plan, number, clock, view, input| {
        let before = Processor {
            number,
            clock,
            view,
        };
        let mut after = before;
        let answer = step(plan, &mut after, input);
        assert!(!matches!(answer, Stepped::Refused(_)) || after == before);
        answer
    };
    let tick = Input::Tick;
    assert_eq!(at(USUAL, 3, 11, 2, tick), Stepped::ViewAndVote(3));
    assert_eq!(at(USUAL, 3, 22, 5, tick), Stepped::Nothing);
    assert_eq!(at(USUAL, 3, 23, 5, tick), Stepped::Refused(17));
    assert_eq!(at(USUAL, 3, 12, 2, tick), Stepped::Refused(9));
    assert_eq!(at(USUAL, 3, 7, 2, tick), Stepped::Refused(9));
    assert_eq!(at(USUAL, 3, 24, 6, tick), Stepped::Refused(9));
    assert_eq!(at(USUAL, 3, 0, 1 << 62, tick), Stepped::Refused(9));
    assert_eq!(at(USUAL, 3, u64::MAX, u64::MAX, tick), Stepped::Refused(9));
    assert_eq!(at(USUAL, 4, 0, 0, tick), Stepped::Refused(10));
    assert_eq!(at(USUAL, u64::MAX, 5, 2, tick), Stepped::Refused(9));
    assert_eq!(at(USUAL, 0, 0, 0, Input::Vc(6)), Stepped::Refused(10));
    assert_eq!(
        at(USUAL, 0, 0, 0, Input::Qc(u64::MAX)),
        Stepped::Refused(10)
    );
    assert_eq!(at(USUAL, 0, 0, 0, Input::Vc(4)), Stepped::Refused(11));
    assert_eq!(at(USUAL, 0, 20, 5, Input::Vc(1)), Stepped::Refused(11));
    assert_eq!(at(USUAL, 0, 20, 5, Input::Qc(4)), Stepped::Nothing);
    assert_eq!(at(USUAL, 0, 20, 5, Input::Qc(5)), Stepped::Refused(17));
    let wide = Plan {
        gamma: u64::MAX,
        ..USUAL
    };
    assert_eq!(at(wide, 0, 0, 0, tick), Stepped::Refused(9));
}

#[test]
fn the_last_quorum_certificate_is_formed_but_not_taken() {
    let mut world = World::opened(&usual(&[0; 4]));
    world.tally[4 * 5 + 2] = 0b11;
    world.put(8, [2, 5, 2, 0]);
    world.run.held = 9;
    world.must(Event::Deliver(Message::Vote(5, 2)));
    assert_eq!(world.tally[4 * 5 + 2..4 * 6], [0b111, 2]);
    world.refuses(Event::Deliver(Message::Qc(5, 0)), 17);
    world.refuses(Event::Show(Message::Qc(5, 0)), 17);
}
