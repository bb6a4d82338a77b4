//! Runs carried over from one form of network to the other.

use crate::common::{setup, usual, Draws, World, USUAL};
use reference::{apply_in, is_sound_in, open_in, pack, unpack};
use reference::{Answer, Event, Form, Message, Packed, Plan, Setup, Stored, Wide};

/// A message of a kind, view, processor and sending time.
const fn stored([kind, view, processor, sent]: [u64; 4]) -> Stored {
    Stored {
        kind,
        view,
        processor,
        sent,
    }
}

/// "view × 512 + (kind − 1) × 64 + processor, then the sending time."
#[test]
fn a_message_in_two_words() {
    for (message, words) in [
        ([1, 0, 0, 0], [0, 0]),
        ([2, 0, 0, 0], [64, 0]),
        ([3, 0, 0, 0], [128, 0]),
        ([4, 0, 0, 0], [192, 0]),
        ([1, 1, 0, 9], [512, 9]),
        ([1, 0, 63, 9], [63, 9]),
        ([2, 7, 5, 31], [3_653, 31]),
        ([3, 300, 12, 1_200], [153_740, 1_200]),
        ([4, 5_999, 63, 59_999_999], [3_071_743, 59_999_999]),
    ] {
        let mut packed = [7; 2];
        Packed.write(stored(message), &mut packed);
        assert_eq!(packed, words);
        assert_eq!(Packed.read(&words), stored(message));
        let mut wide = [7; 4];
        Wide.write(stored(message), &mut wide);
        assert_eq!(wide, message);
        assert_eq!(Wide.read(&message), stored(message));
    }
}

#[test]
fn words_of_no_message_are_read_too() {
    for (word, [kind, view, processor]) in [
        (256, [5, 0, 0]),
        (320, [6, 0, 0]),
        (384, [7, 0, 0]),
        (511, [8, 0, 63]),
        (u64::MAX, [8, (1 << 55) - 1, 63]),
        (1 << 63, [1, 1 << 54, 0]),
    ] {
        let read = Packed.read(&[word, u64::MAX]);
        assert_eq!(read, stored([kind, view, processor, u64::MAX]));
    }
}

/// n=4, all clocks 11, one tick: 16 messages, those of view 3 sent at 1.
fn four_words() -> World {
    let mut world = World::lent(24, 67);
    let World {
        run,
        tally,
        network,
    } = &mut world;
    open_in(Wide, &usual(&[11; 4]), run, tally, network);
    let answer = apply_in(Wide, run, Event::Tick(1), tally, network);
    assert_eq!(answer, Answer::Done { ticks: 1, held: 16 });
    assert!(is_sound_in(Wide, run, tally, network));
    world
}

/// Carries over into so many words of garbage.
fn packed(world: &World, words: usize) -> (Result<(), u64>, Vec<u64>) {
    let mut target = vec![u64::MAX; words];
    let answer = pack(&world.run, &world.tally, &world.network, &mut target);
    (answer, target)
}

fn unpacked(world: &World, words: usize) -> (Result<(), u64>, Vec<u64>) {
    let mut target = vec![u64::MAX; words];
    let answer = unpack(&world.run, &world.tally, &world.network, &mut target);
    (answer, target)
}

#[test]
fn carried_over_in_order_and_back() {
    let wide = four_words();
    let (answer, target) = packed(&wide, 35);
    assert_eq!(answer, Ok(()));
    let first = [0, 0, 64, 0, 1, 0, 65, 0, 2, 0, 66, 0, 3, 0, 67, 0];
    assert_eq!(target[..16], first);
    let then = [
        1_536, 1, 1_600, 1, 1_537, 1, 1_601, 1, 1_538, 1, 1_602, 1, 1_539, 1, 1_603, 1,
    ];
    assert_eq!(target[16..32], then);
    assert_eq!(target[32..], [0; 3]);
    let mut two = wide.clone();
    two.network = target;
    assert!(two.is_sound());
    assert_eq!(unpacked(&two, 67), (Ok(()), wide.network));
}

#[test]
fn a_target_refused_by_6_is_left() {
    let wide = four_words();
    for (words, answer) in [
        (0, Err(6)),
        (15, Err(6)),
        (16, Err(6)),
        (31, Err(6)),
        (32, Ok(())),
        (33, Ok(())),
        (524_288, Ok(())),
        (524_289, Err(6)),
    ] {
        let (told, target) = packed(&wide, words);
        assert_eq!(told, answer, "{words}");
        let left = target.iter().all(|&word| word == u64::MAX);
        assert_eq!(left, answer.is_err(), "{words}");
    }
    let (_, network) = packed(&wide, 32);
    let two = World { network, ..wide };
    for (words, answer) in [
        (0, Err(6)),
        (31, Err(6)),
        (63, Err(6)),
        (64, Ok(())),
        (67, Ok(())),
        (524_288, Ok(())),
        (524_289, Err(6)),
    ] {
        let (told, target) = unpacked(&two, words);
        assert_eq!(told, answer, "{words}");
        let left = target.iter().all(|&word| word == u64::MAX);
        assert_eq!(left, answer.is_err(), "{words}");
    }
}

/// With nothing held the least is that of check 6, in the target's form.
#[test]
fn the_least_target_is_that_of_check_6() {
    let mut world = World::lent(24, 32);
    let faulty = setup(USUAL, 1, &[0; 4]);
    assert!(matches!(world.open(&faulty), Answer::Done { held: 0, .. }));
    let answers = [15, 16].map(|words| packed(&world, words).0);
    assert_eq!(answers, [Err(6), Ok(())]);
    let answers = [31, 32].map(|words| unpacked(&world, words).0);
    assert_eq!(answers, [Err(6), Ok(())]);
    // As they stand, n and the number held need not be those of any run.
    for n in [5, 1 << 61, u64::MAX] {
        world.run.plan.n = n;
        assert_eq!(packed(&world, 16).0, Err(6));
        assert_eq!(unpacked(&world, 32).0, Err(6));
    }
    world.run.plan.n = 0;
    assert_eq!(
        (packed(&world, 0).0, unpacked(&world, 0).0),
        (Err(9), Err(9))
    );
    for held in [9, 1 << 62, 1 << 63, u64::MAX] {
        world.run.held = held;
        assert_eq!(packed(&world, 17).0, Err(6));
        assert_eq!(unpacked(&world, 35).0, Err(6));
    }
}

#[test]
fn an_unsound_run_is_refused_by_9_behind_6() {
    let wide = four_words();
    let mut two = wide.clone();
    two.network = packed(&wide, 33).1;
    let spoilt = |spoil: fn(&mut World)| {
        let (mut wide, mut two) = (wide.clone(), two.clone());
        spoil(&mut wide);
        spoil(&mut two);
        assert_eq!(packed(&wide, 40), (Err(9), vec![u64::MAX; 40]));
        assert_eq!(unpacked(&two, 80), (Err(9), vec![u64::MAX; 80]));
        assert_eq!(
            (packed(&wide, 15).0, unpacked(&two, 31).0),
            (Err(6), Err(6))
        );
    };
    spoilt(|world| world.run.time = 24);
    spoilt(|world| world.run.gst = 1);
    spoilt(|world| world.run.clocks[3] = 24);
    spoilt(|world| world.run.views[3] = 2);
    spoilt(|world| world.run.plan.views = 7);
    spoilt(|world| world.run.faulty = 2);
    spoilt(|world| world.run.held = 15);
    spoilt(|world| world.tally.truncate(23));
    spoilt(|world| world.network.truncate(15));
    spoilt(|world| world.network.resize(524_289, 0));
    spoilt(|world| *world.network.last_mut().unwrap() = 1);
    spoilt(|world| world.network[0] = 320);
    // A sending time of 2 is later than now.
    let late = |place: usize, world: &World| {
        let mut world = world.clone();
        world.network[place] = 2;
        world
    };
    assert_eq!(packed(&late(3, &wide), 40).0, Err(9));
    assert_eq!(unpacked(&late(1, &two), 80).0, Err(9));
}

/// Kind 0 is one of no message in four words only, kinds 5 to 8 in both.
#[test]
fn kinds_out_of_range() {
    let wide = four_words();
    for kind in [0, 5, 6, 7, 8, 9, u64::MAX] {
        let mut other = wide.clone();
        other.network[0] = kind;
        assert_eq!(packed(&other, 40).0, Err(9));
    }
    let mut two = wide.clone();
    two.network = packed(&wide, 32).1;
    for bits in 0..8 {
        let mut other = two.clone();
        other.network[0] = bits * 64;
        let answer = if bits < 4 { Ok(()) } else { Err(9) };
        assert_eq!(unpacked(&other, 64).0, answer);
    }
}

/// An event of a played schedule: a message held, ticks, or settling.
fn drawn(world: &World, draws: &mut Draws) -> Event {
    let held = world.held();
    match (draws.below(40), held.is_empty()) {
        (0, _) => Event::Settle,
        (1..25, false) => {
            let [kind, view, p, _] = draws.one_of(&held);
            Event::Deliver(match kind {
                1 => Message::View(view, p),
                2 => Message::Vote(view, p),
                3 => Message::Vc(view, p),
                _ => Message::Qc(view, p),
            })
        }
        _ => Event::Tick(1 + draws.below(3)),
    }
}

fn drawn_setup(draws: &mut Draws) -> Setup {
    let plan = Plan {
        n: draws.one_of(&[4, 5, 7]),
        views: 30,
        ..USUAL
    };
    setup(
        plan,
        draws.below(2) << draws.below(4),
        &[3, 4, 5, 6, 3, 4, 5],
    )
}

/// "A schedule that both networks could hold is answered alike but for those
/// words."
#[test]
fn both_forms_answer_alike_until_one_is_full() {
    let mut draws = Draws(91);
    let (mut events, mut full) = (0, 0);
    for _ in 0..120 {
        let opening = drawn_setup(&mut draws);
        let mut two = World::lent(120, 100);
        let mut wide = World::lent(120, draws.one_of(&[100, 200]));
        let opened = open_in(
            Wide,
            &opening,
            &mut wide.run,
            &mut wide.tally,
            &mut wide.network,
        );
        assert_eq!(two.open(&opening), opened);
        for _ in 0..300 {
            let event = drawn(&two, &mut draws);
            let World {
                run,
                tally,
                network,
            } = &mut wide;
            let expected = apply_in(Wide, run, event, tally, network);
            let answer = two.apply(event);
            let is_full = |answer| {
                let full = Answer::Refused(18);
                answer == full || matches!(answer, Answer::Stopped { check: 18, .. })
            };
            if is_full(expected) || is_full(answer) {
                full += 1;
                break;
            }
            events += 1;
            assert_eq!(answer, expected);
            assert!(two.run == wide.run && two.tally == wide.tally);
            let (words, lent) = (wide.network.len(), two.network.len());
            assert_eq!(unpacked(&two, words), (Ok(()), wide.network.clone()));
            assert_eq!(packed(&wide, lent), (Ok(()), two.network.clone()));
        }
    }
    assert!(events > 5_000 && full > 20, "{events} {full}");
}
