//! The sums of a run and the report of them.

use crate::common::{setup, usual, Draws, World, USUAL};
use crate::loads::{drawn, load};
use reference::Event::{Deliver, Settle, Show, Sign, Tick};
use reference::Message::{Qc, Vc, View, Vote};
use reference::{apply_sound, generate, read_line, traffic};
use reference::{Answer, Event, Load, Plan, Reading, Setup, Sums, Traffic};

impl World {
    fn traffic(&self) -> Result<Traffic, u64> {
        traffic(&self.run, &self.tally, &self.network)
    }

    /// Sent, delivered and held by kind, and the sum of waits.
    fn has_traffic(&self, sent: [u64; 4], delivered: [u64; 4], held: [u64; 4], waits: u64) {
        let sums = Sums {
            sent,
            delivered,
            waits,
        };
        assert_eq!(self.run.sums, sums);
        assert_eq!(self.traffic(), Ok(Traffic { sums, held }));
    }
}

#[test]
fn the_printed_schedule_of_document_01() {
    let mut world = World::opened(&usual(&[0; 4]));
    world.has_traffic([4, 4, 0, 0], [0; 4], [4, 4, 0, 0], 0);
    for event in [Deliver(View(0, 0)), Deliver(View(0, 1))] {
        world.must(event);
    }
    world.has_traffic([4, 4, 4, 0], [2, 0, 0, 0], [2, 4, 4, 0], 0);
    for event in [Tick(3), Settle, Tick(3)] {
        world.must(event);
    }
    world.has_traffic([4, 4, 4, 0], [2, 0, 0, 0], [2, 4, 4, 0], 0);
}

#[test]
fn a_wait_is_the_time_of_delivery_less_that_of_sending() {
    let mut world = World::opened(&usual(&[0; 4]));
    world.must(Tick(3));
    world.must(Deliver(View(0, 2)));
    world.has_traffic([4, 4, 0, 0], [1, 0, 0, 0], [3, 4, 0, 0], 3);
    world.must(Tick(2));
    // It forms the view certificate, sent at 5.
    world.must(Deliver(View(0, 0)));
    world.has_traffic([4, 4, 4, 0], [2, 0, 0, 0], [2, 4, 4, 0], 8);
    world.must(Settle);
    world.must(Deliver(Vc(0, 3)));
    world.has_traffic([4, 4, 4, 0], [2, 0, 1, 0], [2, 4, 3, 0], 8);
    world.must(Tick(2));
    world.must(Deliver(Vc(0, 0)));
    world.has_traffic([4, 4, 4, 0], [2, 0, 2, 0], [2, 4, 2, 0], 10);
}

#[test]
fn of_equal_messages_the_first_one_has_waited() {
    let mut world = World::opened(&usual(&[0; 4]));
    world.must(Tick(4));
    world.put(8, [1, 0, 1, 3]);
    world.run.held = 9;
    world.must(Deliver(View(0, 1)));
    assert_eq!(world.run.sums.waits, 4);
    world.must(Deliver(View(0, 1)));
    assert_eq!(world.run.sums.waits, 5);
}

#[test]
fn every_kind_is_counted() {
    let mut world = World::opened(&usual(&[0; 4]));
    for p in 0..4 {
        world.must(Deliver(View(0, p)));
        world.must(Deliver(Vote(0, p)));
    }
    world.has_traffic([4, 4, 4, 4], [4, 4, 0, 0], [0, 0, 4, 4], 0);
    world.must(Tick(1));
    for p in 0..4 {
        world.must(Deliver(Vc(0, p)));
        world.must(Deliver(Qc(0, p)));
    }
    // Each enters view 1 and sends its vote.
    world.has_traffic([4, 8, 4, 4], [4, 4, 4, 4], [0, 4, 0, 0], 8);
}

#[test]
fn what_a_tick_sends_is_counted() {
    let mut world = World::opened(&usual(&[11, 11, 11, 10]));
    world.must(Tick(1));
    world.has_traffic([7, 7, 0, 0], [0; 4], [7, 7, 0, 0], 0);
    world.must(Tick(9));
    world.has_traffic([8, 8, 0, 0], [0; 4], [8, 8, 0, 0], 0);
}

#[test]
fn messages_to_a_faulty_processor_are_not_sent() {
    let world = World::opened(&setup(USUAL, 1, &[0; 4]));
    world.has_traffic([0; 4], [0; 4], [0; 4], 0);
    let mut world = World::opened(&setup(USUAL, 8, &[0; 4]));
    world.has_traffic([3, 3, 0, 0], [0; 4], [3, 3, 0, 0], 0);
    world.must(Deliver(View(0, 0)));
    world.must(Deliver(View(0, 1)));
    world.has_traffic([3, 3, 3, 0], [2, 0, 0, 0], [1, 3, 3, 0], 0);
}

#[test]
fn signatures_and_shown_certificates_are_neither_sent_nor_delivered() {
    let mut world = World::opened(&setup(USUAL, 8, &[0; 4]));
    world.must(Tick(1));
    world.must(Sign(Vote(0, 3)));
    world.must(Sign(Vote(5, 3)));
    world.has_traffic([3, 3, 0, 0], [0; 4], [3, 3, 0, 0], 0);
    world.must(Deliver(View(0, 0)));
    // It forms the view certificate, which is sent.
    world.must(Sign(View(0, 3)));
    world.has_traffic([3, 3, 3, 0], [1, 0, 0, 0], [2, 3, 3, 0], 1);
    world.must(Show(Vc(0, 1)));
    world.has_traffic([3, 3, 3, 0], [1, 0, 0, 0], [2, 3, 3, 0], 1);
    let mut world = World::opened(&setup(USUAL, 1, &[0; 4]));
    for view in 0..3 {
        for p in 1..3 {
            world.must(Show(Qc(view, p)));
        }
    }
    // Nobody is told of views 1 and 2, processor 1 of view 3.
    world.has_traffic([2, 2, 0, 0], [0; 4], [2, 2, 0, 0], 0);
}

#[test]
fn an_accepted_opening_starts_the_sums_anew() {
    let mut world = World::opened(&usual(&[0; 4]));
    world.run.sums.waits = 77;
    world.run.sums.sent[3] = u64::MAX;
    let before = world.clone();
    assert_eq!(world.open(&usual(&[5, 0, 0, 0])), Answer::Refused(8));
    assert!(world == before);
    world.open(&setup(USUAL, 2, &[0; 4]));
    world.has_traffic([3, 3, 0, 0], [0; 4], [3, 3, 0, 0], 0);
}

#[test]
fn refused_events_count_nothing() {
    let mut world = World::lent(24, 16);
    world.open(&usual(&[0; 4]));
    world.must(Deliver(View(0, 0)));
    // Four certificates would have no room.
    world.refuses(Deliver(View(0, 1)), 18);
    world.refuses(Deliver(View(0, 0)), 13);
    world.refuses(Deliver(Vote(1, 0)), 13);
    world.refuses(Sign(Vote(0, 0)), 12);
    world.has_traffic([4, 4, 0, 0], [1, 0, 0, 0], [3, 4, 0, 0], 0);
}

#[test]
fn sums_handed_in_wrap_and_go_unchecked() {
    let mut world = World::opened(&usual(&[0; 4]));
    world.run.sums = Sums {
        sent: [7, u64::MAX, u64::MAX - 2, 0],
        delivered: [u64::MAX, 1 << 63, 0, 9],
        waits: u64::MAX - 1,
    };
    assert!(world.is_sound());
    world.must(Tick(3));
    world.must(Deliver(View(0, 0)));
    world.must(Deliver(View(0, 1)));
    // The certificate's four bring 2^64 - 3 to 1, waits of 3 and 3 bring
    // 2^64 - 2 to 4.
    let (sent, delivered) = ([7, u64::MAX, 1, 0], [1, 1 << 63, 0, 9]);
    world.has_traffic(sent, delivered, [2, 4, 4, 0], 4);
}

#[test]
fn an_unsound_run_has_no_report() {
    let good = World::opened(&usual(&[0; 4]));
    let spoilt = |spoil: fn(&mut World)| {
        let mut world = good.clone();
        spoil(&mut world);
        assert_eq!(world.traffic(), Err(9));
    };
    spoilt(|world| world.run.time = 24);
    spoilt(|world| world.run.gst = 1);
    spoilt(|world| world.run.held = 7);
    spoilt(|world| world.network[0] = 256);
    spoilt(|world| world.network[16] = 1);
    spoilt(|world| world.run.clocks[0] = 12);
    spoilt(|world| world.tally.truncate(23));
    assert_eq!(World::lent(24, 16).traffic(), Err(9));
    assert!(good.traffic().is_ok());
}

/// "The sums are those of the schedule's history: sent is delivered plus held,
/// kind by kind, and for any one view at most 2n view messages and view
/// certificates together are ever posted."
#[test]
fn sums_are_those_of_the_history() {
    let mut draws = Draws(81);
    for _ in 0..150 {
        let setup = drawn(&mut draws);
        let mut made = load(400, draws.below(500), draws.any());
        let lines = lines(&setup, &mut made);
        let mut world = World::opened(&setup);
        let (mut delivered, mut waits) = ([0; 4], 0);
        let mut posted = vec![0; setup.plan.views as usize];
        let mut known = Vec::new();
        count_new(&world, &mut known, &mut posted);
        for event in lines {
            if let Deliver(message) = event {
                let name = [message.kind(), message.view(), message.processor()];
                let place = known.iter().position(|words: &[u64; 4]| words[..3] == name);
                waits += world.run.time - known.remove(place.expect("it is held"))[3];
                delivered[message.kind() as usize - 1] += 1;
            }
            world.must(event);
            count_new(&world, &mut known, &mut posted);
            let report = world.traffic().expect("it is sound");
            let mut sent = delivered;
            for words in &known {
                sent[words[0] as usize - 1] += 1;
            }
            let sums = Sums {
                sent,
                delivered,
                waits,
            };
            assert_eq!(report.sums, sums);
            for kind in 0..4 {
                assert_eq!(sent[kind], delivered[kind] + report.held[kind]);
            }
        }
        assert!(posted.iter().all(|&number| number <= 2 * setup.plan.n));
    }
}

/// The events of a load.
fn lines(setup: &Setup, load: &mut Load) -> Vec<Event> {
    let mut world = World::lent(3_600, 2_048);
    let mut out = vec![0; 1 << 16];
    let World {
        run,
        tally,
        network,
    } = &mut world;
    let piece = generate(setup, load, run, tally, network, &mut out).expect("it opens");
    out[..piece.bytes]
        .split(|&byte| byte == b'\n')
        .filter_map(|line| match read_line(line) {
            Reading::Event(event) => Some(event),
            _ => None,
        })
        .collect()
}

/// Takes in the messages behind those known, and per view the view messages
/// and view certificates among them.
fn count_new(world: &World, known: &mut Vec<[u64; 4]>, posted: &mut [u64]) {
    let held = world.held();
    assert_eq!(held[..known.len()], known[..]);
    for words in &held[known.len()..] {
        posted[words[1] as usize] += u64::from(words[0] == 1 || words[0] == 3);
    }
    *known = held;
}

#[test]
fn both_ways_of_applying_count_alike() {
    let mut world = World::opened(&usual(&[11; 4]));
    let mut other = world.clone();
    for event in [Deliver(View(0, 1)), Tick(1), Deliver(View(0, 2)), Settle] {
        world.must(event);
        apply_sound(&mut other.run, event, &mut other.tally, &mut other.network);
    }
    assert!(world == other && world.run.sums.waits == 1);
}

#[test]
fn a_message_counts_by_its_own_kind() {
    let plan = Plan { views: 9, ..USUAL };
    for (kind, message) in [View(3, 2), Vote(4, 2), Vc(6, 2), Qc(7, 2)]
        .into_iter()
        .enumerate()
    {
        let mut world = World::opened(&setup(plan, 0, &[0; 4]));
        let words = [message.kind(), message.view(), message.processor(), 0];
        world.put(8, words);
        world.run.held = 9;
        let mut held = [4, 4, 0, 0];
        held[kind] += 1;
        world.has_traffic([4, 4, 0, 0], [0; 4], held, 0);
        world.must(Deliver(message));
        assert_eq!(world.run.sums.delivered[kind], 1);
        assert_eq!(world.run.sums.delivered.iter().sum::<u64>(), 1);
    }
}
