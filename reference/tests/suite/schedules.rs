//! Drawn schedules: soundness kept, both ways of applying equal, long runs of
//! ticks equal to single ones, one processor's step equal to the simulator's,
//! and the watch content.

use crate::common::{setup, Draws, World};
use reference::Event::{Deliver, Settle, Show, Sign, Tick};
use reference::Message::{Qc, Vc, View, Vote};
use reference::{apply_sound, step, Input, Message, Plan, Processor};
use reference::{Answer, Event, Setup, Watch};

/// A setup that is accepted.
fn drawn_setup(draws: &mut Draws) -> Setup {
    let delta = 1 + draws.below(3);
    let k = 2 + draws.below(7);
    let least = if k == 2 { 4 * delta } else { 2 * delta };
    let plan = Plan {
        n: draws.one_of(&[4, 5, 6, 7, 10]),
        delta,
        gamma: least + draws.below(3),
        views: k * (1 + draws.below(900 / k)),
        k,
    };
    let mut faulty = 0;
    for _ in 0..draws.below(plan.tolerance() + 1) {
        faulty |= 1 << draws.below(plan.n);
    }
    let base = draws.below((k - 1) * plan.gamma);
    let clocks: Vec<u64> = (0..plan.n)
        .map(|_| base + draws.below(plan.gamma + 1))
        .collect();
    setup(plan, faulty, &clocks)
}

/// A message held, drawn or the first.
fn held(world: &World, draws: &mut Draws, first: bool) -> Option<Message> {
    let held = world.run.held;
    let place = if first { 0 } else { draws.below(held.max(1)) };
    match world.held().get(place as usize) {
        Some(&[1, view, p, _]) => Some(View(view, p)),
        Some(&[2, view, p, _]) => Some(Vote(view, p)),
        Some(&[3, view, p, _]) => Some(Vc(view, p)),
        Some(&[4, view, p, _]) => Some(Qc(view, p)),
        _ => None,
    }
}

/// An event that the adversary may try next; the eager network delivers
/// without need.
fn drawn_event(world: &World, draws: &mut Draws, eager: bool) -> Event {
    let processor = draws.below(world.run.plan.n);
    let around = world.run.views[processor as usize];
    let view = (around + draws.below(4)).saturating_sub(draws.below(4));
    let initial = view - view % world.run.plan.k;
    let chosen = draws.below(if eager { 16 } else { 40 });
    match chosen {
        0 => Sign(View(initial, processor)),
        1 => Sign(Vote(view, processor)),
        2 => Show(Vc(initial, processor)),
        3 => Show(Qc(view, processor)),
        4 if draws.below(20) == 0 => Settle,
        5 if eager => Tick(1 + draws.below(4)),
        6..=15 if eager => held(world, draws, false).map_or(Tick(1), Deliver),
        6..=9 => held(world, draws, false).map_or(Tick(1), Deliver),
        _ => Tick(1 + draws.below(4)),
    }
}

/// Applies an event in every way and compares.
fn applied(world: &mut World, event: Event) -> Answer {
    let before = world.clone();
    let answer = world.apply(event);
    let mut other = before.clone();
    let again = apply_sound(&mut other.run, event, &mut other.tally, &mut other.network);
    assert_eq!(answer, again);
    assert!(*world == other);
    assert!(world.is_sound());
    match answer {
        Answer::Refused(_) => assert!(*world == before),
        Answer::Done { held, .. } | Answer::Stopped { held, .. } => {
            assert_eq!(held, world.run.held);
            compare_steps(&before, world, event, answer);
        }
    }
    answer
}

/// Compares a run of ticks with single ones, and a received certificate with
/// the processor's own step.
fn compare_steps(before: &World, after: &World, event: Event, answer: Answer) {
    let (number, input) = match event {
        Tick(_) => return compare_ticks(before, after, answer),
        Deliver(Vc(view, to)) | Show(Vc(view, to)) => (to, Input::Vc(view)),
        Deliver(Qc(view, to)) | Show(Qc(view, to)) => (to, Input::Qc(view)),
        _ => return,
    };
    compare_step(before, after, number, input);
}

fn compare_step(before: &World, after: &World, number: u64, input: Input) {
    let of = |world: &World| Processor {
        number,
        clock: world.run.clocks[number as usize],
        view: world.run.views[number as usize],
    };
    let mut processor = of(before);
    step(before.run.plan, &mut processor, input);
    assert_eq!(processor, of(after));
}

fn compare_ticks(before: &World, after: &World, answer: Answer) {
    let (Answer::Done { ticks, .. } | Answer::Stopped { ticks, .. }) = answer else {
        return;
    };
    assert_eq!(after.run.time - before.run.time, ticks);
    let mut single = before.clone();
    for _ in 0..ticks {
        let earlier = single.clone();
        let answer = single.apply(Tick(1));
        assert!(matches!(answer, Answer::Done { ticks: 1, .. }));
        for number in 0..single.run.plan.n {
            if single.run.faulty >> number & 1 == 0 {
                compare_step(&earlier, &single, number, Input::Tick);
            }
        }
    }
    assert!(single == *after);
    if let Answer::Stopped { check, .. } = answer {
        assert_eq!(single.apply(Tick(1)), Answer::Refused(check));
    }
}

/// One schedule; answers whether the second sentence came to be due.
fn schedule(seed: u64, events: u64) -> bool {
    let mut draws = Draws(seed);
    let opening = drawn_setup(&mut draws);
    let mut world = World::lent(4 * opening.plan.views as usize, 255);
    let opened = world.open(&opening);
    if let Answer::Refused(check) = opened {
        // The drawn clocks may be too far apart.
        assert!([7, 8].contains(&check), "{opening:?} {check}");
        return false;
    }
    let (mut watch, mut kept) = Watch::opened(&world.run);
    let eager = draws.below(3) == 0;
    for _ in 0..events {
        kept.clone()
            .unwrap_or_else(|broken| panic!("{seed}: {broken}"));
        let event = drawn_event(&world, &mut draws, eager);
        let answer = applied(&mut world, event);
        kept = watch.after(event, &answer, &world.run, &world.tally);
        if matches!(
            answer,
            Answer::Refused(16) | Answer::Stopped { check: 16, .. }
        ) {
            let late = held(&world, &mut draws, true).map_or(Settle, Deliver);
            let answer = applied(&mut world, late);
            kept = kept.and(watch.after(late, &answer, &world.run, &world.tally));
        }
    }
    kept.unwrap_or_else(|broken| panic!("{seed}: {broken}"));
    watch.ticks_since_settling() > watch.patience()
}

#[test]
fn drawn_schedules() {
    let due = (0..200).filter(|&seed| schedule(seed, 1_200)).count();
    assert!(due > 40, "the second sentence was due in {due} schedules");
}
