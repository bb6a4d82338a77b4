//! Lines: what is written is read as what it was.

use super::*;

#[test]
fn lines_come_back() {
    let mut state = 7;
    let mut out = [0; raw::LINE_BYTES];
    let kinds = [Kind::View, Kind::Vote, Kind::Vc, Kind::Qc];
    for round in 0..500u32 {
        let big = draw(&mut state) << (draw(&mut state) % 34);
        let m = message(
            kinds[draw(&mut state) as usize % 4],
            big,
            draw(&mut state) % 70,
        );
        let event = match round % 5 {
            0 => Event::Deliver(m),
            1 => Event::Sign(m),
            2 => Event::Show(m),
            3 => Event::Settle,
            _ => Event::Tick(big),
        };
        let formed = match event {
            Event::Sign(m) => m.kind.number() <= 2,
            Event::Show(m) => m.kind.number() >= 3,
            Event::Tick(ticks) => ticks != 0,
            _ => true,
        };
        assert_eq!(Event::from_numbers(event.numbers()), Some(event));
        let bytes = write_event(event, &mut out);
        assert_eq!(bytes.is_some(), formed, "{event:?}");
        if let Some(k) = bytes {
            assert_eq!(out[k - 1], b'\n');
            assert_eq!(read_line(&out[..k - 1]), Some(Line::Event(event)));
        }
    }
}

#[test]
fn setups_come_back() {
    let mut state = 11;
    let mut out = [0; raw::LINE_BYTES];
    for n in 0..=65 {
        let mut setup = Setup::new(Plan {
            n,
            delta: draw(&mut state),
            gamma: u64::MAX,
            views: draw(&mut state),
            k: draw(&mut state),
        });
        setup.faulty = draw(&mut state);
        for clock in &mut setup.clocks {
            *clock = draw(&mut state);
        }
        assert_eq!(Setup::from_words(&setup.words()), setup);
        let bytes = write_setup(&setup, &mut out);
        assert_eq!(bytes.is_some(), (1..=64).contains(&n));
        if let Some(k) = bytes {
            setup.clocks[n as usize..].fill(0);
            assert_eq!(read_line(&out[..k - 1]), Some(Line::Open(setup)));
        }
    }
    let mut largest = Setup::new(Plan {
        n: 64,
        delta: u64::MAX,
        gamma: u64::MAX,
        views: u64::MAX,
        k: u64::MAX,
    });
    largest.faulty = u64::MAX;
    largest.clocks = [u64::MAX; raw::TABLE];
    let bytes = write_setup(&largest, &mut out);
    assert_eq!(bytes, Some(raw::LINE_BYTES));
    assert_eq!(write_setup(&largest, &mut out[1..]), None);
    assert_eq!(read_line(b"(open 4 2 4 6 0 (0 0 0))"), None);
    assert_eq!(read_line(b"(tick 0)"), None);
    assert_eq!(read_line(b""), None);
}

#[test]
fn a_line_without_views_per_leader_has_three() {
    let mut clocked = setup(&[0, 1, 2, 3], 8);
    let read = |line: &[u8]| read_line(line);
    let expected = Some(Line::Open(clocked.clone()));
    assert_eq!(read(b"(open 4 2 4 6 8 (0 1 2 3))"), expected);
    assert_eq!(read(b"(open 4 2 4 6 3 8 (0 1 2 3))"), expected);
    assert_eq!(PLAN.k, Plan::VIEWS_PER_LEADER);
    let mut out = [7; 64];
    let bytes = write_setup(&clocked, &mut out).expect("it has a form");
    assert_eq!(&out[..bytes], b"(open 4 2 4 6 3 8 (0 1 2 3))\n");
    clocked.plan.k = u64::MAX;
    let expected = Some(Line::Open(clocked));
    let line = b"(open 4 2 4 6 18446744073709551615 8 (0 1 2 3))";
    assert_eq!(read(line), expected);
    for line in [
        &b"(open 4 2 4 6 (0 1 2 3))"[..],
        b"(open 4 2 4 6 3 8 0 (0 1 2 3))",
        b"(open 4 2 4 6 18446744073709551616 8 (0 1 2 3))",
    ] {
        assert_eq!(read(line), None);
    }
}
