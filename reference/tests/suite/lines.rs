//! Lines written and read again.

use crate::common::{setup, usual, Draws, USUAL};
use reference::{read_line, write_event, write_setup, Event, Message, Plan, Reading, Setup};

/// Writes into just enough bytes, and one fewer, and some more.
fn written(write: impl Fn(&mut [u8]) -> Result<usize, u64>) -> Vec<u8> {
    let mut long = vec![7; 2_000];
    let length = write(&mut long).expect("room enough");
    assert!(long[length..].iter().all(|&byte| byte == 7));
    long.truncate(length);
    let mut exact = vec![7; length];
    assert_eq!(write(&mut exact), Ok(length));
    assert_eq!(exact, long);
    let mut short = vec![7; length - 1];
    assert_eq!(write(&mut short), Err(1));
    assert!(short.iter().all(|&byte| byte == 7));
    assert_eq!(long.pop(), Some(b'\n'));
    long
}

fn event_line(event: Event) -> String {
    let line = written(|out| write_event(event, out));
    assert_eq!(read_line(&line), Reading::Event(event));
    String::from_utf8(line).expect("plain bytes")
}

fn setup_line(setup: &Setup) -> String {
    let line = written(|out| write_setup(setup, out));
    let mut read = *setup;
    read.clocks[setup.plan.n as usize..].fill(0);
    assert_eq!(read_line(&line), Reading::Opening(read));
    String::from_utf8(line).expect("plain bytes")
}

#[test]
fn the_forms_of_events() {
    use reference::Event::{Deliver, Settle, Show, Sign, Tick};
    use reference::Message::{Qc, Vc, View, Vote};
    let forms = [
        (Deliver(View(0, 1)), "(deliver (view 0 1))"),
        (Deliver(Vote(10, 63)), "(deliver (vote 10 63))"),
        (Deliver(Vc(3, 0)), "(deliver (vc 3 0))"),
        (Deliver(Qc(5_999, 9)), "(deliver (qc 5999 9))"),
        (Sign(View(0, 0)), "(sign (view 0 0))"),
        (Sign(Vote(1, 2)), "(sign (vote 1 2))"),
        (Show(Vc(100, 200)), "(show (vc 100 200))"),
        (Show(Qc(0, 0)), "(show (qc 0 0))"),
        (Settle, "(settle)"),
        (Tick(1), "(tick 1)"),
        (Tick(u64::MAX), "(tick 18446744073709551615)"),
    ];
    for (event, line) in forms {
        assert_eq!(event_line(event), line);
    }
}

#[test]
fn the_longest_lines() {
    let event = Event::Deliver(Message::View(u64::MAX, u64::MAX));
    assert_eq!(event_line(event).len(), 58);
    let plan = Plan {
        n: 64,
        delta: u64::MAX,
        gamma: u64::MAX,
        views: u64::MAX,
        k: u64::MAX,
    };
    let line = setup_line(&setup(plan, u64::MAX, &[u64::MAX; 64]));
    assert_eq!(line.len(), 6 + 3 + 5 * 21 + 1 + 64 * 21 - 1 + 2);
    assert_eq!(line.len(), 1_460);
}

#[test]
fn the_forms_of_openings() {
    assert_eq!(
        setup_line(&usual(&[0, 10, 2, 3])),
        "(open 4 2 4 6 3 0 (0 10 2 3))"
    );
    let one = Plan {
        n: 1,
        k: 70,
        ..USUAL
    };
    let line = setup_line(&setup(one, 9, &[5, 6]));
    assert_eq!(line, "(open 1 2 4 6 70 9 (5))");
}

/// What a line is read as: its plan and faulty processors.
fn read(line: &str) -> Option<(Plan, u64)> {
    match read_line(line.as_bytes()) {
        Reading::Opening(setup) => Some((setup.plan, setup.faulty)),
        _ => None,
    }
}

#[test]
fn a_line_without_k_has_three() {
    assert_eq!(read("(open 4 2 4 6 8 (0 0 0 0))"), Some((USUAL, 8)));
    assert_eq!(read("(open 4 2 4 6 3 8 (0 0 0 0))"), Some((USUAL, 8)));
    let five = Plan { k: 5, ..USUAL };
    assert_eq!(read("(open 4 2 4 6 5 8 (0 0 0 0))"), Some((five, 8)));
    // A line says nothing about its limits.
    for k in [0, 1, 9, u64::MAX] {
        let line = format!("(open 4 2 4 6 {k} 8 (0 0 0 0))");
        assert_eq!(read(&line), Some((Plan { k, ..USUAL }, 8)));
    }
    for line in [
        "(open 4 2 4 6 (0 0 0 0))",
        "(open 4 2 4 6 3 8 0 (0 0 0 0))",
        "(open 4 2 4 6 3 8 0 0 (0 0 0 0))",
        "(open 4 2 4 6 03 8 (0 0 0 0))",
        "(open 4 2 4 6 18446744073709551616 8 (0 0 0 0))",
        "(open 4 2 4 6 3 18446744073709551616 (0 0 0 0))",
        "(open 4 2 4 6 18446744073709551616 (0 0 0 0))",
        "(open 4 2 4 6 3  8 (0 0 0 0))",
        "(open 4 2 4 6 3 8(0 0 0 0))",
        "(open 4 2 4 6 3 8  (0 0 0 0))",
        "(open 4 2 4 6 (3) 8 (0 0 0 0))",
        "(open 4 2 4 6 3 8)",
        "(open 4 2 4 6 3",
        "(open 4 2 4 6 3 ",
    ] {
        assert_eq!(read(line), None, "{line}");
    }
}

#[test]
fn lines_are_written_with_k() {
    let written = |line: &str| {
        let Reading::Opening(setup) = read_line(line.as_bytes()) else {
            panic!("{line}");
        };
        let mut bytes = [0; 100];
        let length = write_setup(&setup, &mut bytes).expect("room enough");
        String::from_utf8_lossy(&bytes[..length]).into_owned()
    };
    let three = "(open 4 2 4 6 3 0 (0 1 2 3))";
    assert_eq!(written("(open 4 2 4 6 0 (0 1 2 3))").trim_end(), three);
    assert_eq!(written(three).trim_end(), three);
    let eight = "(open 4 2 4 8 8 1 (0 1 2 3))";
    assert_eq!(written(eight).trim_end(), eight);
}

#[test]
fn a_setup_without_a_form_is_not_written() {
    for n in [0, 65, u64::MAX] {
        let mut bytes = [7; 2_000];
        let formless = setup(Plan { n, ..USUAL }, 0, &[]);
        assert_eq!(write_setup(&formless, &mut bytes), Err(1));
        assert_eq!(bytes, [7; 2_000]);
    }
}

#[test]
fn no_lent_bytes() {
    assert_eq!(write_event(Event::Settle, &mut []), Err(1));
    assert_eq!(write_setup(&usual(&[]), &mut []), Err(1));
}

/// A number of any length.
fn number(draws: &mut Draws) -> u64 {
    draws.any() >> draws.below(64)
}

fn drawn_event(draws: &mut Draws) -> Event {
    let (view, processor) = (number(draws), number(draws));
    let own = draws.one_of(&[
        Message::View(view, processor),
        Message::Vote(view, processor),
    ]);
    let certificate = draws.one_of(&[Message::Vc(view, processor), Message::Qc(view, processor)]);
    draws.one_of(&[
        Event::Deliver(own),
        Event::Deliver(certificate),
        Event::Sign(own),
        Event::Show(certificate),
        Event::Settle,
        Event::Tick(view.max(1)),
    ])
}

#[test]
fn drawn_events_come_back() {
    let mut draws = Draws(1);
    for _ in 0..2_000 {
        event_line(drawn_event(&mut draws));
    }
}

#[test]
fn drawn_setups_come_back() {
    let mut draws = Draws(2);
    for _ in 0..200 {
        let plan = Plan {
            n: 1 + draws.below(64),
            delta: number(&mut draws),
            gamma: number(&mut draws),
            views: number(&mut draws),
            k: number(&mut draws),
        };
        let faulty = number(&mut draws);
        let clocks: Vec<u64> = (0..64).map(|_| number(&mut draws)).collect();
        setup_line(&setup(plan, faulty, &clocks));
    }
}
