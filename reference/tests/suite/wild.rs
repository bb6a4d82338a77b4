//! Any words whatever: soundness against its sentence read literally, and
//! that nothing panics and a refusal changes nothing.

use crate::common::{setup, Draws, World, USUAL};
use reference::{apply_sound, step, Answer, Event, Input, Message, Plan, Processor, Run, Stepped};
use reference::{traffic, Sums};

/// Check 9's sentence, each part as written, over wide numbers.
fn unsound_as_written(world: &World) -> bool {
    let run = &world.run;
    let wide = |number: u64| u128::from(number);
    let Plan {
        n,
        delta,
        gamma,
        views,
        k,
    } = run.plan;
    let limits = !(4..=64).contains(&n)
        || !(1..=1_000).contains(&delta)
        || k == 2 && wide(gamma) < 4 * wide(delta)
        || wide(gamma) < 2 * wide(delta)
        || gamma > 10_000
        || !(3..=6_000).contains(&views)
        || !(2..=8).contains(&k)
        || views % k != 0
        || (0..64).any(|p| p >= n && run.faulty >> p & 1 == 1)
        || u64::from(run.faulty.count_ones()) > (n - 1) / 3
        || (world.tally.len() as u128) < 4 * wide(views)
        || (world.network.len() as u128) < 4 * wide(n)
        || world.network.len() > 524_288;
    if limits {
        return true;
    }
    let last = wide(views) * wide(gamma);
    let correct: Vec<usize> = (0..n as usize)
        .filter(|p| run.faulty >> p & 1 == 0)
        .collect();
    let clocks = correct.iter().any(|&p| {
        let (clock, view) = (wide(run.clocks[p]), wide(run.views[p]));
        let next = (view / wide(k) + 1) * wide(k);
        clock >= last || clock < view * wide(gamma) || clock >= next * wide(gamma)
    });
    let times = wide(run.time) >= last || run.gst > run.time || (!run.settled && run.gst != 0);
    let fit = world.network.len() as u128 / 2;
    if clocks || times || wide(run.held) > fit {
        return true;
    }
    let used = run.held as usize * 2;
    world.network[used..].iter().any(|&word| word != 0)
        || world.held().iter().any(|&[kind, view, processor, sent]| {
            let to = if kind < 3 { view / k % n } else { processor };
            !(1..=4).contains(&kind)
                || view >= views
                || processor >= n
                || sent > run.time
                || run.faulty >> to & 1 == 1
        })
}

/// A number near some edge.
fn edge(draws: &mut Draws) -> u64 {
    let small = draws.below(30);
    let near = draws.one_of(&[64, 1_000, 6_000, 10_000, 1 << 62, 1 << 63]);
    let any = draws.any();
    draws.one_of(&[0, 1, small, small, near - 1, near, near + 1, any, u64::MAX])
}

/// A sound run after some events, with a word beyond a multiple of 2.
fn sound(draws: &mut Draws) -> World {
    let faulty = draws.one_of(&[0, 1, 2, 4, 8]);
    let shorter = Plan {
        gamma: 8,
        k: 2,
        ..USUAL
    };
    let plan = draws.one_of(&[USUAL, shorter]);
    let last = plan.k * plan.gamma - 1;
    let mut world = World::lent(30, 37);
    let answer = world.open(&setup(plan, faulty, &[last, last, last, last - 1]));
    assert!(matches!(answer, Answer::Done { .. }));
    world.apply(Event::Tick(1 + draws.below(4)));
    if draws.below(2) == 0 {
        world.must(Event::Settle);
    }
    // No check looks at the sums.
    world.run.sums = Sums {
        sent: [0; 4].map(|_: u64| edge(draws)),
        delivered: [0; 4].map(|_: u64| edge(draws)),
        waits: edge(draws),
    };
    assert!(world.is_sound() && !unsound_as_written(&world));
    world
}

/// Changes one word of the run, the tally or the network.
fn spoil(world: &mut World, draws: &mut Draws) {
    let value = edge(draws);
    let place = draws.below(64) as usize;
    let some = draws.below(8) as usize;
    let run: &mut Run = &mut world.run;
    match draws.below(17) {
        16 => run.plan.k = draws.one_of(&[value, 1, 2, 3, 6, 9]),
        0 => run.plan.n = value,
        1 => run.plan.delta = value,
        2 => run.plan.gamma = value,
        3 => run.plan.views = value,
        4 => run.faulty = value,
        5 => run.time = value,
        6 => run.settled = !run.settled,
        7 => run.gst = value,
        8 => run.held = value,
        9 => run.clocks[some] = value,
        10 => run.views[some] = value,
        11 => world.tally.truncate(place),
        12 => world.network.truncate(place % 37),
        13 => world.tally[place % 30] = value,
        14 => world.network[place % 37] = value,
        _ => world.network[place % 37] ^= 1 << place,
    }
}

fn any_event(draws: &mut Draws) -> Event {
    let (view, processor) = (edge(draws), edge(draws));
    let message = draws.one_of(&[
        Message::View(view, processor),
        Message::Vote(view, processor),
        Message::Vc(view, processor),
        Message::Qc(view, processor),
    ]);
    draws.one_of(&[
        Event::Deliver(message),
        Event::Sign(message),
        Event::Show(message),
        Event::Settle,
        Event::Tick(view),
    ])
}

#[test]
fn soundness_is_its_sentence_and_apply_is_total() {
    let mut draws = Draws(3);
    let mut sound_ones = 0;
    for _ in 0..40_000 {
        let mut world = sound(&mut draws);
        for _ in 0..=draws.below(2) {
            if world.tally.len() == 30 && world.network.len() == 37 {
                spoil(&mut world, &mut draws);
            }
        }
        let is_sound = world.is_sound();
        assert_eq!(is_sound, !unsound_as_written(&world), "{world:?}");
        sound_ones += u32::from(is_sound);
        one_event(world, any_event(&mut draws), is_sound);
    }
    assert!(sound_ones > 4_000, "{sound_ones}");
}

/// Applies an event both ways to a run, sound or not.
fn one_event(before: World, event: Event, is_sound: bool) {
    let report = traffic(&before.run, &before.tally, &before.network);
    assert_eq!(
        report.map(|report| report.sums),
        if is_sound {
            Ok(before.run.sums)
        } else {
            Err(9)
        }
    );
    let mut world = before.clone();
    let answer = world.apply(event);
    if let Answer::Refused(check) = answer {
        assert!(world == before);
        assert_eq!(check == 1, !event.has_form());
        assert_eq!(check == 9, event.has_form() && !is_sound);
    } else {
        assert!(is_sound);
        assert!(world.is_sound() || world.run.time >= world.run.plan.clock_limit());
    }
    let mut other = before;
    let again = apply_sound(&mut other.run, event, &mut other.tally, &mut other.network);
    if is_sound {
        assert_eq!(answer, again);
        assert!(world == other);
    }
}

#[test]
fn a_time_handed_in_ahead_of_the_clocks_stops_no_tick() {
    // Check 9 looks at the run handed in, check 17 at clocks alone.
    let mut world = sound(&mut Draws(6));
    world.run.time = world.run.plan.clock_limit() - 1;
    world.run.settled = false;
    world.run.gst = 0;
    assert!(world.is_sound());
    let held = world.run.held;
    assert_eq!(world.apply(Event::Tick(3)), Answer::Done { ticks: 3, held });
    world.refuses(Event::Tick(1), 9);
}

#[test]
fn wild_openings_are_refused_unchanged_or_sound() {
    let mut draws = Draws(4);
    for _ in 0..20_000 {
        let mut opening = setup(USUAL, 0, &[0, 1, 2, 3]);
        let value = edge(&mut draws);
        match draws.below(8) {
            0 => opening.plan.n = value,
            1 => opening.plan.delta = value,
            2 => opening.plan.gamma = value,
            3 => opening.plan.views = value,
            4 => opening.faulty = value,
            5 => opening.plan.k = value,
            _ => opening.clocks[draws.below(6) as usize] = value,
        }
        let mut world = World::lent(
            draws.one_of(&[0, 23, 24, 99]),
            draws.one_of(&[0, 15, 16, 600]),
        );
        world.tally.fill(draws.any());
        world.network.fill(draws.any());
        let before = world.clone();
        match world.open(&opening) {
            Answer::Refused(check) => {
                assert!((2..=8).contains(&check));
                assert!(world == before);
            }
            _ => assert!(world.is_sound() && !unsound_as_written(&world)),
        }
    }
}

#[test]
fn wild_steps() {
    let mut draws = Draws(5);
    for _ in 0..50_000 {
        let mut plan = USUAL;
        let value = edge(&mut draws);
        match draws.below(10) {
            0 => plan.n = value,
            1 => plan.delta = value,
            2 => plan.gamma = value,
            3 => plan.views = value,
            4 | 5 => plan.k = value,
            _ => {}
        }
        let before = Processor {
            number: edge(&mut draws),
            clock: edge(&mut draws),
            view: edge(&mut draws),
        };
        let mut after = before;
        let view = edge(&mut draws);
        let input = draws.one_of(&[Input::Tick, Input::Vc(view), Input::Qc(view)]);
        match step(plan, &mut after, input) {
            Stepped::Refused(check) => {
                assert!([9, 10, 11, 17].contains(&check));
                assert_eq!(after, before);
            }
            Stepped::Nothing => assert_eq!(after.view, before.view),
            Stepped::Vote(view) => assert!(after.view == view && view % plan.k != 0),
            Stepped::ViewAndVote(view) => assert!(after.view == view && view % plan.k == 0),
        }
        assert!(after.clock >= before.clock && after.view >= before.view);
    }
}
