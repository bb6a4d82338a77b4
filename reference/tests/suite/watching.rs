//! The watch notices what breaks its sentences.

use crate::common::{setup, usual, World, USUAL};
use reference::Event::{Deliver, Settle, Sign, Tick};
use reference::Message::{Qc, Vc, View, Vote};
use reference::{Answer, Event, Plan, Watch};

/// A plan with views enough to outlast the watch's patience.
const LONG: Plan = Plan { views: 60, ..USUAL };

/// Applies an event and hands it to the watch.
fn watched(world: &mut World, watch: &mut Watch, event: Event) -> Result<(), String> {
    let answer = world.apply(event);
    watch.after(event, &answer, &world.run, &world.tally)
}

#[test]
fn an_opening_with_clocks_apart_is_noticed() {
    let mut world = World::opened(&usual(&[4, 0, 0, 0]));
    assert!(Watch::opened(&world.run).1.is_ok());
    world.run.clocks[0] = 5;
    assert!(Watch::opened(&world.run).1.is_err());
    world.run.clocks[1] = 1;
    assert!(Watch::opened(&world.run).1.is_ok());
    world.run.faulty = 2;
    assert!(Watch::opened(&world.run).1.is_err());
}

#[test]
fn clocks_apart_are_noticed_after_any_event() {
    let mut world = World::opened(&usual(&[4, 0, 0, 0]));
    let (mut watch, _) = Watch::opened(&world.run);
    assert_eq!(watched(&mut world, &mut watch, Tick(0)), Ok(()));
    world.run.clocks[0] = 5;
    assert!(watched(&mut world, &mut watch, Tick(0)).is_err());
}

#[test]
fn ticks_that_gain_no_time_are_noticed() {
    let world = World::opened(&usual(&[0; 4]));
    let (watch, _) = Watch::opened(&world.run);
    let claim = |event, answer| {
        watch
            .clone()
            .after(event, &answer, &world.run, &world.tally)
    };
    let done = |ticks| Answer::Done { ticks, held: 8 };
    assert!(claim(Tick(3), done(3)).is_err());
    assert!(claim(Tick(3), done(0)).is_err());
    assert!(claim(Tick(3), done(4)).is_err());
    assert_eq!(claim(Tick(3), Answer::Refused(16)), Ok(()));
    assert_eq!(claim(Settle, done(0)), Ok(()));
}

#[test]
fn a_second_settling_and_a_vote_out_of_range_are_noticed() {
    let world = World::opened(&usual(&[0; 4]));
    let (mut watch, _) = Watch::opened(&world.run);
    let done = Answer::Done { ticks: 0, held: 8 };
    let mut claim = |event| watch.after(event, &done, &world.run, &world.tally);
    assert!(claim(Deliver(Vote(6, 0))).is_err());
    assert!(claim(Deliver(Vote(u64::MAX, 0))).is_err());
    assert!(claim(Sign(Vote(0, 4))).is_err());
    assert!(claim(Settle).is_ok());
    assert!(claim(Settle).is_err());
}

#[test]
fn a_wrong_mark_is_noticed() {
    let mut world = World::opened(&usual(&[0; 4]));
    let (mut watch, _) = Watch::opened(&world.run);
    for p in 0..2 {
        let kept = watched(&mut world, &mut watch, Deliver(Vote(0, p)));
        assert_eq!(kept, Ok(()));
    }
    let mut early = world.clone();
    early.tally[3] |= 2;
    let kept = watched(&mut early, &mut watch.clone(), Deliver(Vote(0, 2)));
    assert_eq!(kept, Ok(()), "formed by now in the watch's reckoning");
    let answer = world.apply(Deliver(Vote(0, 2)));
    world.tally[3] = 0;
    assert!(watch
        .after(Deliver(Vote(0, 2)), &answer, &world.run, &world.tally)
        .is_err());
}

/// Ticks on with an empty network that the tests make so, as no simulator
/// may: no vote is ever heard.
#[test]
fn no_quorum_certificate_since_settling_is_noticed() {
    let mut world = World::opened(&setup(LONG, 0, &[0; 4]));
    let (mut watch, _) = Watch::opened(&world.run);
    assert_eq!(watch.patience(), 4 * 4 + 4 * 2);
    for p in 0..3 {
        let kept = watched(&mut world, &mut watch, Deliver(Vote(0, p)));
        assert_eq!(kept, Ok(()));
    }
    assert_eq!(watched(&mut world, &mut watch, Settle), Ok(()));
    assert_eq!(watch.least_formed_since_settling(), None);
    for tick in 1..=25 {
        world.network.fill(0);
        world.run.held = 0;
        let kept = watched(&mut world, &mut watch, Tick(1));
        assert_eq!(kept.is_ok(), tick <= 24, "{tick}");
        assert_eq!(watch.ticks_since_settling(), tick);
    }
}

#[test]
fn a_processor_left_behind_is_noticed() {
    let mut world = World::opened(&setup(LONG, 8, &[0; 4]));
    let (mut watch, _) = Watch::opened(&world.run);
    assert_eq!(watch.patience(), 7 * 4 + 4 * 2);
    let events = [
        Settle,
        Sign(Vote(0, 3)),
        Deliver(Vote(0, 1)),
        Deliver(Vote(0, 2)),
    ];
    for event in events {
        assert_eq!(watched(&mut world, &mut watch, event), Ok(()));
    }
    assert_eq!(watch.least_formed_since_settling(), Some(0));
    for _ in 0..36 {
        world.network.fill(0);
        world.run.held = 0;
        assert_eq!(watched(&mut world, &mut watch, Tick(1)), Ok(()));
    }
    let mut behind = world.clone();
    assert_eq!(watched(&mut world, &mut watch.clone(), Tick(0)), Ok(()));
    world.network.fill(0);
    world.run.held = 0;
    assert_eq!(watched(&mut world, &mut watch, Tick(1)), Ok(()));
    behind.run = world.run.clone();
    behind.run.views[1] = 0;
    let refused = Answer::Refused(9);
    assert!(watch
        .after(Settle, &refused, &behind.run, &behind.tally)
        .is_err());
}

#[test]
fn a_kept_list_is_passed() {
    let mut world = World::opened(&setup(LONG, 0, &[0; 4]));
    let (mut watch, _) = Watch::opened(&world.run);
    let mut events = vec![Settle];
    events.extend((0..4).flat_map(|p| [Deliver(View(0, p)), Deliver(Vote(0, p))]));
    events.extend((0..4).flat_map(|p| [Deliver(Vc(0, p)), Deliver(Qc(0, p))]));
    for event in events {
        let answer = world.apply(event);
        assert!(!matches!(answer, Answer::Refused(_)), "{event:?}");
        let kept = watch.after(event, &answer, &world.run, &world.tally);
        assert_eq!(kept, Ok(()));
    }
    assert_eq!(watch.least_formed_since_settling(), Some(0));
    assert_eq!(world.run.views[..4], [1; 4]);
}
