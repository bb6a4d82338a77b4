//! Views per leader: what follows k, from its limits to the settling bound.

use crate::common::{opening, setup, World, USUAL};
use reference::Event::{Deliver, Settle, Show, Tick};
use reference::Message::{Qc, Vc, View};
use reference::{simulate, step, Answer, Input, Plan, Processor, Stepped, Watch};

/// n=4, delta 2 and as little gamma as this k allows.
fn of(k: u64, views: u64) -> Plan {
    let gamma = if k == 2 { 8 } else { 4 };
    Plan {
        gamma,
        views,
        k,
        ..USUAL
    }
}

/// The check that refuses a plan, 0 if none does.
fn refusal(plan: Plan) -> u64 {
    match World::lent(24_000, 512).open(&setup(plan, 0, &[])) {
        Answer::Refused(check) => check,
        _ => 0,
    }
}

#[test]
fn leaders_take_k_views_in_turn() {
    let leaders = |k| [0, 1, 2, 3, 4, 5, 7, 8, 15, 16, 40].map(|view| of(k, 240).lead(view));
    assert_eq!(leaders(2), [0, 0, 1, 1, 2, 2, 3, 0, 3, 0, 0]);
    assert_eq!(leaders(5), [0, 0, 0, 0, 0, 1, 1, 1, 3, 3, 0]);
    assert_eq!(leaders(8), [0, 0, 0, 0, 0, 0, 0, 1, 1, 2, 1]);
    let none = Plan { n: 0, ..of(5, 240) };
    assert_eq!(none.lead(7), 0);
}

#[test]
fn initial_views_are_the_multiples_of_k() {
    for k in 2..=8 {
        let plan = of(k, 840);
        for view in 0..=3 * k {
            assert_eq!(plan.initial(view), [0, k, 2 * k, 3 * k].contains(&view));
            assert_eq!(plan.next_initial(view), (1 + view / k) * k, "{k} {view}");
        }
        assert_eq!(plan.round(), k * plan.gamma);
    }
    let top = of(5, 0).next_initial(u64::MAX - 1);
    assert_eq!(top, u64::MAX, "2^64 + 4 is none of 64 bits");
    assert_eq!(of(2, 0).next_initial(u64::MAX - 2), u64::MAX - 1);
}

#[test]
fn no_views_per_leader_are_a_plan_too() {
    let plan = of(0, 6);
    assert_eq!([0, 1, u64::MAX].map(|view| plan.lead(view)), [0; 3]);
    let initial = [0, 1, 6, u64::MAX].map(|view| plan.initial(view));
    assert_eq!(initial, [true, false, false, false]);
    assert_eq!([0, 1, u64::MAX].map(|view| plan.next_initial(view)), [0; 3]);
    assert_eq!(plan.round(), 0);
}

#[test]
fn a_slot_of_four_delays_for_two_views_and_of_two_otherwise() {
    let with = |k, gamma| {
        refusal(Plan {
            gamma,
            ..of(k, 840)
        })
    };
    let edge = |k| [3, 4, 7, 8, 10_000, 10_001].map(|gamma| with(k, gamma));
    assert_eq!(edge(2), [3, 3, 3, 0, 0, 3]);
    for k in 3..=8 {
        assert_eq!(edge(k), [3, 0, 0, 0, 0, 3], "{k}");
    }
    // Check 3 comes before k is judged, and asks 4 delays for k=2 alone.
    for k in [0, 1, 9, u64::MAX] {
        assert_eq!(edge(k), [3, 4, 4, 4, 4, 3], "{k}");
    }
    let most = |gamma| Plan {
        delta: 1_000,
        gamma,
        ..of(2, 6)
    };
    assert_eq!([3_999, 4_000].map(|gamma| refusal(most(gamma))), [3, 0]);
}

#[test]
fn two_to_eight_views_of_a_limit_that_is_a_multiple() {
    let checks = [0, 1, 2, 3, 4, 5, 6, 7, 8, 9, 10, 1 << 63, u64::MAX];
    let with = |k| refusal(of(k, 2_520));
    assert_eq!(checks.map(with), [4, 4, 0, 0, 0, 0, 0, 0, 0, 4, 4, 4, 4]);
    let edge = |k| [3, k - 1, k, k + 1, 2 * k].map(|views| refusal(of(k, views)));
    assert_eq!(edge(2), [4, 4, 4, 4, 0], "a limit of 2 views is below 3");
    assert_eq!(edge(3), [0, 4, 0, 4, 0]);
    for k in 4..=8 {
        assert_eq!(edge(k), [4, 4, 0, 4, 0], "{k}");
    }
    assert_eq!(refusal(of(4, 6)), 4);
    assert_eq!([5_992, 6_000].map(|views| refusal(of(8, views))), [0, 0]);
    assert_eq!([5_997, 6_003].map(|views| refusal(of(7, views))), [4, 4]);
    assert_eq!([5_994, 6_001].map(|views| refusal(of(7, views))), [4, 4]);
}

#[test]
fn start_clocks_below_k_slots() {
    for k in 2..=8 {
        let plan = of(k, 840);
        let last = k * plan.gamma - 1;
        let with = |clock| opening(&setup(plan, 0, &[clock, clock, 0, 0]));
        let opened = Answer::Done { ticks: 0, held: 8 };
        assert_eq!([with(last), with(last + 1)], [opened, Answer::Refused(7)]);
        let mut world = World::opened(&setup(plan, 0, &[last; 4]));
        world.must(Tick(1));
        assert_eq!(world.run.views[..4], [k; 4]);
        assert_eq!(world.held()[8..10], [[1, k, 0, 1], [2, k, 0, 1]]);
    }
}

#[test]
fn check_11_and_the_messages_of_a_view_follow_k() {
    let mut world = World::opened(&setup(of(2, 12), 0, &[0; 4]));
    for (view, check) in [(1, 11), (2, 13), (3, 11), (4, 13)] {
        world.refuses(Deliver(View(view, 0)), check);
    }
    world.tally[4 + 3] = 2;
    world.must(Show(Qc(1, 3)));
    assert_eq!((world.run.views[3], world.run.clocks[3]), (2, 16));
    assert_eq!(world.held()[8..], [[1, 2, 3, 0], [2, 2, 3, 0]]);
    let mut world = World::opened(&setup(of(5, 20), 0, &[0; 4]));
    for (view, check) in [(2, 11), (3, 11), (4, 11), (5, 14), (6, 11), (10, 14)] {
        world.refuses(Show(Vc(view, 0)), check);
    }
    world.tally[4 * 2 + 3] = 2;
    world.must(Show(Qc(2, 3)));
    assert_eq!(world.held()[8..], [[2, 3, 3, 0]]);
}

#[test]
fn check_9_follows_k() {
    let mut world = World::opened(&setup(of(5, 20), 0, &[19, 19, 0, 0]));
    assert!(world.is_sound());
    world.run.clocks[0] = 20;
    assert!(!world.is_sound(), "the clock time of view 5");
    world.run.views[0] = 5;
    assert!(world.is_sound());
    world.run.clocks[0] = 39;
    assert!(world.is_sound());
    world.run.plan.k = 4;
    assert!(!world.is_sound(), "view 8 is the next initial one");
    world.run.plan.k = 10;
    assert!(!world.is_sound(), "no such k, though 20 is a multiple");
    // View 7 is led by processor 1 for k=5, by processor 3 for k=2.
    let mut world = World::opened(&setup(of(5, 20), 2, &[0; 4]));
    world.put(6, [2, 7, 0, 0]);
    world.run.held += 1;
    assert!(!world.is_sound());
    world.run.plan.k = 2;
    assert!(!world.is_sound(), "a slot of two delays is too short");
    world.run.plan.gamma = 8;
    assert!(world.is_sound());
}

#[test]
fn one_processor_follows_k() {
    let at = |k, clock, view, input| {
        let mut processor = Processor {
            number: 3,
            clock,
            view,
        };
        let answer = step(of(k, 40), &mut processor, input);
        (answer, processor.view, processor.clock)
    };
    let tick = Input::Tick;
    assert_eq!(at(2, 15, 1, tick), (Stepped::ViewAndVote(2), 2, 16));
    assert_eq!(at(5, 15, 1, tick), (Stepped::Nothing, 1, 16));
    assert_eq!(at(5, 19, 1, tick), (Stepped::ViewAndVote(5), 5, 20));
    assert_eq!(at(8, 19, 1, tick), (Stepped::Nothing, 1, 20));
    assert_eq!(at(2, 16, 1, tick), (Stepped::Refused(9), 1, 16));
    assert_eq!(at(5, 0, 0, Input::Qc(1)), (Stepped::Vote(2), 2, 8));
    assert_eq!(at(2, 0, 0, Input::Qc(1)), (Stepped::ViewAndVote(2), 2, 16));
    assert_eq!(at(8, 0, 0, Input::Vc(6)), (Stepped::Refused(11), 0, 0));
    assert_eq!(at(8, 0, 0, Input::Vc(8)), (Stepped::ViewAndVote(8), 8, 32));
    for k in [0, 1, 3, 9, u64::MAX] {
        assert_eq!(at(k, 0, 0, tick), (Stepped::Refused(9), 0, 0), "{k}");
    }
}

#[test]
fn the_program_reads_both_forms() {
    let input = b"(open 4 2 4 6 2 0 (0 0 0 0))\n(open 4 2 8 7 2 0 (0 0 0 0))\n\
        (open 4 2 8 6 2 0 (16 0 0 0))\n(open 4 2 8 4 2 0 (15 15 15 15))\n(tick 1)\n\
        (open 4 2 4 6 0 (11 11 11 11))\n(tick 1)\n";
    let printed = simulate(input);
    let expected = "(refused 3)\n(refused 4)\n(refused 7)\n(done 0 8)\n(done 1 16)\n\
        (done 0 8)\n(done 1 16)\n\
        (cabinet 0 3 12)\n(cabinet 1 3 12)\n(cabinet 2 3 12)\n(cabinet 3 3 12)\n";
    assert_eq!(String::from_utf8_lossy(&printed), expected);
}

#[test]
fn the_settling_bound() {
    let bound = |k, faulty| {
        let plan = Plan {
            n: 64,
            views: 840,
            ..of(k, 840)
        };
        let world = World::opened(&setup(plan, faulty, &[0; 64]));
        Watch::opened(&world.run).0.patience()
    };
    // As it was for k=3: (3f+4) gamma + 4 delta.
    assert_eq!([bound(3, 0), bound(3, 0b11)], [4 * 4 + 8, 10 * 4 + 8]);
    assert_eq!([bound(2, 0), bound(2, 1)], [16 + 8 + 8, 32 + 8 + 8]);
    assert_eq!(bound(8, (1 << 21) - 1), 8 * 22 * 4 + 4 + 8);
    let most = Plan {
        delta: u64::MAX,
        ..USUAL
    };
    assert_eq!(most.settling_bound(1), u64::MAX);
}

/// Messages are taken away as no simulator may: nothing is heard, so the watch
/// complains with the first tick beyond the bound.
#[test]
fn the_watch_waits_as_long_as_its_k_says() {
    for k in 2..=8 {
        let mut world = World::opened(&setup(of(k, 840), 1, &[0; 4]));
        let (mut watch, _) = Watch::opened(&world.run);
        let bound = 2 * k * world.run.plan.gamma + world.run.plan.gamma + 8;
        let answer = world.apply(Settle);
        let mut kept = watch.after(Settle, &answer, &world.run, &world.tally);
        for _ in 0..bound {
            assert_eq!(kept, Ok(()), "{k}");
            world.network.fill(0);
            world.run.held = 0;
            let answer = world.apply(Tick(1));
            kept = watch.after(Tick(1), &answer, &world.run, &world.tally);
        }
        assert_eq!(kept, Ok(()), "{k}");
        world.network.fill(0);
        world.run.held = 0;
        let answer = world.apply(Tick(1));
        kept = watch.after(Tick(1), &answer, &world.run, &world.tally);
        assert!(kept.is_err(), "{k}");
    }
}
