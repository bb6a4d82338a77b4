//! Document 01's schedule and settings and refused events, through the archive; the rest by subject.

use crate::*;

mod carrying;
mod lines;
mod loads;
mod together;
mod traffic;
mod words;

/// The buffers that the simulate program lends.
const TALLY_WORDS: usize = 3600;
const NETWORK_WORDS: usize = 2048;

const PLAN: Plan = Plan {
    n: 4,
    delta: 2,
    gamma: 4,
    views: 6,
    k: 3,
};

/// A run with its buffers.
#[derive(Clone, Debug, PartialEq)]
struct Simulator {
    run: Run,
    tally: Vec<u64>,
    network: Vec<u64>,
}

impl Simulator {
    fn new() -> Simulator {
        Simulator {
            run: Run::unopened(),
            tally: vec![0; TALLY_WORDS],
            network: vec![0; NETWORK_WORDS],
        }
    }

    fn open(&mut self, setup: &Setup) -> Answer {
        open(setup, &mut self.run, &mut self.tally, &mut self.network)
    }

    fn apply(&mut self, event: Event) -> Answer {
        apply(&mut self.run, event, &mut self.tally, &mut self.network)
    }

    fn apply_all(&mut self, events: &[Event]) -> Vec<Answer> {
        apply_all(&mut self.run, events, &mut self.tally, &mut self.network)
    }

    fn apply_words(&mut self, events: &mut [u64]) -> u64 {
        let run = self.run.words_mut();
        raw::apply_all(run, &mut self.tally, &mut self.network, events)
    }

    fn opened(setup: &Setup) -> Simulator {
        let mut simulator = Simulator::new();
        assert!(matches!(
            simulator.open(setup),
            Answer::Done { ticks: 0, .. }
        ));
        simulator
    }
}

fn setup(clocks: &[u64], faulty: u64) -> Setup {
    let mut setup = Setup::new(PLAN);
    setup.faulty = faulty;
    setup.clocks[..clocks.len()].copy_from_slice(clocks);
    setup
}

fn message(kind: Kind, view: u64, processor: u64) -> Message {
    Message {
        kind,
        view,
        processor,
    }
}

/// A number that differs from step to step (Knuth's MMIX constants).
fn draw(state: &mut u64) -> u64 {
    *state = state
        .wrapping_mul(6364136223846793005)
        .wrapping_add(1442695040888963407);
    *state >> 33
}

fn printed(answer: Answer) -> String {
    match answer {
        Answer::Done { ticks, held } => format!("(done {ticks} {held})\n"),
        Answer::Stopped { ticks, held, check } => format!("(stopped {ticks} {held} {check})\n"),
        Answer::Refused(check) => format!("(refused {check})\n"),
    }
}

#[test]
fn prints_the_schedule() {
    let schedule = "(open 4 2 4 6 0 (0 0 0 0))\n(deliver (view 0 0))\n(deliver (view 0 1))\n(tick 3)\n(settle)\n(tick 3)\n";
    let mut simulator = Simulator::new();
    let mut text = String::new();
    for line in schedule.lines() {
        text += &printed(match read_line(line.as_bytes()) {
            Some(Line::Open(setup)) => simulator.open(&setup),
            Some(Line::Event(event)) => simulator.apply(event),
            None => Answer::Refused(1),
        });
    }
    for p in 0..4 {
        text += &format!(
            "(cabinet {p} {} {})\n",
            simulator.run.view(p),
            simulator.run.clock(p)
        );
    }
    assert_eq!(
        text,
        "(done 0 8)\n(done 0 7)\n(done 0 10)\n(done 3 10)\n(done 0 10)\n(stopped 2 10 16)\n\
         (cabinet 0 0 5)\n(cabinet 1 0 5)\n(cabinet 2 0 5)\n(cabinet 3 0 5)\n"
    );
    assert_eq!((simulator.run.time(), simulator.run.held()), (5, 10));
    assert!(simulator.run.settled());
    assert_eq!((simulator.run.gst(), simulator.run.plan()), (3, PLAN));
}

#[test]
fn opens_the_settings() {
    let answer = |setup: &Setup| Simulator::new().open(setup);
    let done = |held| Answer::Done { ticks: 0, held };
    assert_eq!(answer(&setup(&[4, 0, 0, 0], 0)), done(8));
    assert_eq!(answer(&setup(&[5, 0, 0, 0], 0)), Answer::Refused(8));
    assert_eq!(answer(&setup(&[9, 9, 0, 0], 0)), done(8));
    assert_eq!(answer(&setup(&[9, 9, 0, 0], 2)), Answer::Refused(8));
    assert_eq!(answer(&setup(&[12, 12, 12, 12], 0)), Answer::Refused(7));
    let slot = |gamma| {
        Setup::new(Plan {
            delta: 4,
            gamma,
            ..PLAN
        })
    };
    assert_eq!(answer(&slot(7)), Answer::Refused(3));
    assert_eq!(answer(&slot(8)), done(8));
}

#[test]
fn opens_by_the_views_per_leader() {
    let opened = |k, gamma, views, clock| {
        let plan = Plan {
            gamma,
            views,
            k,
            ..PLAN
        };
        let clocks = [clock; raw::TABLE];
        match Simulator::new().open(&Setup {
            plan,
            faulty: 0,
            clocks,
        }) {
            Answer::Refused(check) => check,
            _ => 0,
        }
    };
    // A slot of 4Δ for two views per leader, of 2Δ for any other number of them, which only then is judged.
    assert_eq!([7, 8].map(|gamma| opened(2, gamma, 6, 0)), [3, 0]);
    for k in [0, 1, 9, u64::MAX] {
        assert_eq!([3, 4].map(|gamma| opened(k, gamma, 9, 0)), [3, 4], "{k}");
    }
    for k in 3..=8 {
        assert_eq!([3, 4].map(|gamma| opened(k, gamma, 840, 0)), [3, 0], "{k}");
        assert_eq!(opened(k, 4, 841, 0), 4);
        let clocks = [4 * k - 1, 4 * k];
        assert_eq!(clocks.map(|clock| opened(k, 4, 840, clock)), [0, 7], "{k}");
    }
    assert_eq!(opened(4, 4, 6, 0), 4);
}

#[test]
fn ticks_into_an_initial_view() {
    let mut simulator = Simulator::opened(&setup(&[11, 11, 11, 11], 0));
    let answer = simulator.apply(Event::Tick(1));
    assert_eq!(answer, Answer::Done { ticks: 1, held: 16 });
    assert!((0..4).all(|p| simulator.run.view(p) == 3));
}

#[test]
fn steps_the_settings() {
    let at = |clock, view| Processor {
        number: 0,
        clock,
        view,
    };
    let stepped = |mut processor, input| {
        let answer = step(PLAN, &mut processor, input);
        (processor, answer)
    };
    let sent = Stepped::Sent;
    assert_eq!(
        stepped(at(2, 0), Input::Qc(2)),
        (at(12, 3), sent(Sends::ViewAndVote(3)))
    );
    assert_eq!(
        stepped(at(6, 0), Input::Qc(0)),
        (at(6, 1), sent(Sends::Vote(1)))
    );
    assert_eq!(
        stepped(at(12, 3), Input::Vc(3)),
        (at(12, 3), sent(Sends::Nothing))
    );
    assert_eq!(
        stepped(at(2, 0), Input::Vc(3)),
        (at(12, 3), sent(Sends::ViewAndVote(3)))
    );
    assert_eq!(
        stepped(at(11, 0), Input::Tick),
        (at(12, 3), sent(Sends::ViewAndVote(3)))
    );
    assert_eq!(
        stepped(at(2, 0), Input::Tick),
        (at(3, 0), sent(Sends::Nothing))
    );
    for (processor, input, check) in [
        (at(2, 0), Input::Qc(5), 17),
        (at(12, 0), Input::Tick, 9),
        (at(2, 0), Input::Qc(6), 10),
        (at(2, 0), Input::Vc(2), 11),
    ] {
        assert_eq!(
            stepped(processor, input),
            (processor, Stepped::Refused(check))
        );
    }
    let two = Plan {
        gamma: 8,
        k: 2,
        ..PLAN
    };
    let mut shorter = at(15, 0);
    let answer = step(two, &mut shorter, Input::Tick);
    assert_eq!((shorter, answer), (at(16, 2), sent(Sends::ViewAndVote(2))));
    let answer = step(two, &mut shorter, Input::Vc(3));
    assert_eq!((shorter, answer), (at(16, 2), Stepped::Refused(11)));
    let stranger = Processor {
        number: 4,
        ..at(2, 0)
    };
    assert_eq!(
        stepped(stranger, Input::Tick),
        (stranger, Stepped::Refused(10))
    );
}

#[test]
fn refused_events_leave_every_word() {
    let mut simulator = Simulator::opened(&setup(&[0, 0, 0, 0], 8));
    let kept = simulator.clone();
    for (event, check) in [
        (Event::Tick(0), 1),
        (Event::Sign(message(Kind::Vc, 0, 3)), 1),
        (Event::Show(message(Kind::View, 0, 0)), 1),
        (Event::Deliver(message(Kind::View, 0, 4)), 10),
        (Event::Deliver(message(Kind::Vote, 6, 0)), 10),
        (Event::Deliver(message(Kind::Vc, 1, 0)), 11),
        (Event::Sign(message(Kind::Vote, 0, 0)), 12),
        (Event::Deliver(message(Kind::Qc, 0, 0)), 13),
        (Event::Show(message(Kind::Qc, 0, 0)), 14),
    ] {
        assert_eq!(simulator.apply(event), Answer::Refused(check), "{event:?}");
        assert_eq!(simulator, kept);
    }
    let mut wrong = setup(&[5, 0, 0, 0], 0);
    assert_eq!(simulator.open(&wrong), Answer::Refused(8));
    wrong.plan.views = 4;
    assert_eq!(simulator.open(&wrong), Answer::Refused(4));
    assert_eq!(simulator, kept);
    assert_eq!(
        simulator.apply(Event::Settle),
        Answer::Done { ticks: 0, held: 6 }
    );
    assert_eq!(simulator.apply(Event::Settle), Answer::Refused(15));
}
