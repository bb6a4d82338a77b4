//! Loads: every line of one is accepted and leads where it led, in one piece and in several.

use super::*;

/// Room for every load here.
const ROOM: usize = 1 << 16;

/// A setup that opens.
fn opening(state: &mut u64) -> Setup {
    let k = 2 + draw(state) % 7;
    let plan = Plan {
        n: 4 + draw(state) % 9,
        delta: 2,
        gamma: if k == 2 { 8 } else { 4 } + draw(state) % 40,
        views: k * (2 + draw(state) % 12),
        k,
    };
    let mut setup = Setup::new(plan);
    setup.faulty = draw(state) % 2;
    setup.clocks.fill_with(|| draw(state) % 4);
    setup
}

/// A load of some hundred steps, settled early, late or not at all.
fn drawn(state: &mut u64) -> Load {
    Load::new(draw(state) % 400, draw(state) % 500, draw(state) << 20)
}

impl Simulator {
    fn generate(&mut self, setup: &Setup, load: &mut Load, out: &mut [u8]) -> Generated {
        generate(
            setup,
            load,
            &mut self.run,
            &mut self.tally,
            &mut self.network,
            out,
        )
    }

    fn generate_more(&mut self, load: &mut Load, out: &mut [u8]) -> Generated {
        generate_more(load, &mut self.run, &mut self.tally, &mut self.network, out)
    }

    /// A whole load: its lines, and where they led.
    pub(super) fn generated(setup: &Setup, load: &mut Load) -> (Vec<u8>, Simulator) {
        let (mut simulator, mut out) = (Simulator::new(), vec![b'x'; ROOM]);
        let Generated::Ended { bytes } = simulator.generate(setup, load, &mut out) else {
            panic!("{load:?} does not end");
        };
        assert!(out[bytes..].iter().all(|&byte| byte == b'x'));
        out.truncate(bytes);
        (out, simulator)
    }
}

#[test]
fn every_line_is_accepted_and_leads_there() {
    let mut state = 5;
    let (mut ticks, mut deliveries, mut settlings, mut short) = (0, 0, 0, 0);
    for _ in 0..200 {
        let (setup, made) = (opening(&mut state), drawn(&mut state));
        let mut load = made;
        let (text, end) = Simulator::generated(&setup, &mut load);
        let mut again = Simulator::new();
        for (number, line) in text.split_inclusive(|&byte| byte == b'\n').enumerate() {
            let line = line.strip_suffix(b"\n").expect("whole lines only");
            let answer = match (number, read_line(line)) {
                (0, Some(Line::Open(setup))) => again.open(&setup),
                (1.., Some(Line::Event(event))) => {
                    match event {
                        Event::Tick(1) => ticks += 1,
                        Event::Deliver(_) => deliveries += 1,
                        Event::Settle => settlings += 1,
                        _ => panic!("{event:?}"),
                    }
                    again.apply(event)
                }
                (_, other) => panic!("{other:?}"),
            };
            assert!(matches!(answer, Answer::Done { .. }), "{answer:?}");
        }
        assert_eq!(again, end);
        assert!(load.step <= load.steps && (load.steps, load.settle) == (made.steps, made.settle));
        short += u32::from(load.step < load.steps);
    }
    assert!(
        ticks > 5_000 && deliveries > 5_000 && settlings > 50 && short > 5,
        "{ticks} {deliveries} {settlings} {short}"
    );
}

#[test]
fn pieces_are_those_of_one_call() {
    let mut state = 6;
    let mut pieces = 0;
    for _ in 0..100 {
        let (setup, made) = (opening(&mut state), drawn(&mut state));
        let mut whole = made;
        let (text, end) = Simulator::generated(&setup, &mut whole);
        let (mut simulator, mut load, mut lines) = (Simulator::new(), made, Vec::new());
        let mut out = [0; 200];
        let mut piece = simulator.generate(&setup, &mut load, &mut out);
        while let Generated::Full { bytes } = piece {
            lines.extend_from_slice(&out[..bytes]);
            // Room for any delivery, or at times for none.
            let room = draw(&mut state) as usize % out.len();
            piece = simulator.generate_more(&mut load, &mut out[..room]);
            pieces += 1;
        }
        let Generated::Ended { bytes } = piece else {
            panic!("{piece:?}");
        };
        lines.extend_from_slice(&out[..bytes]);
        assert_eq!((lines, load), (text, whole));
        assert_eq!(simulator, end);
    }
    assert!(pieces > 1_000, "{pieces}");
}

#[test]
fn the_first_lines_of_seed_1() {
    let mut load = Load::new(2, 1, 1);
    let (text, end) = Simulator::generated(&setup(&[0, 0, 0, 0], 0), &mut load);
    let expected =
        "(open 4 2 4 6 3 0 (0 0 0 0))\n(deliver (vote 0 1))\n(settle)\n(deliver (view 0 3))\n";
    assert_eq!(String::from_utf8_lossy(&text), expected);
    assert_eq!((load.seed, load.step), (7_062_582_979_898_595_269, 2));
    assert_eq!((end.run.held(), end.run.settled()), (6, true));
}

#[test]
fn refused_loads_leave_every_word() {
    let mut simulator = Simulator::opened(&setup(&[1, 1, 1, 1], 0));
    let kept = simulator.clone();
    let (mut load, mut out) = (Load::new(9, 0, 7), [b'x'; 100]);
    let answer = simulator.generate(&setup(&[5, 0, 0, 0], 0), &mut load, &mut out);
    assert_eq!(answer, Generated::Refused(8));
    // The opening's line has 27 bytes.
    let answer = simulator.generate(&setup(&[0, 0, 0, 0], 0), &mut load, &mut out[..26]);
    assert_eq!(answer, Generated::Full { bytes: 0 });
    assert_eq!((&simulator, load), (&kept, Load::new(9, 0, 7)));
    simulator.run.words_mut()[raw::RUN_SETTLED] = 2;
    let spoilt = simulator.clone();
    let answer = simulator.generate_more(&mut load, &mut out);
    assert_eq!((answer, &simulator), (Generated::Refused(9), &spoilt));
    // The time alone: the first event is refused.
    let mut late = kept;
    late.run.words_mut()[raw::RUN_TIME] = PLAN.views * PLAN.gamma;
    let spoilt = late.clone();
    let answer = late.generate_more(&mut load, &mut out);
    assert_eq!((answer, &late), (Generated::Ended { bytes: 0 }, &spoilt));
    assert_eq!((load, out), (Load::new(9, 0, 7), [b'x'; 100]));
}

#[test]
fn short_slices_make_no_load() {
    let words = setup(&[0, 0, 0, 0], 0).words();
    let (mut run, mut tally, mut network) = ([7; raw::RUN_WORDS], [7; 24], [7; 64]);
    let (mut load, mut out) = ([7; raw::LOAD_WORDS + 1], [7; 100]);
    let short = raw::RUN_WORDS - 1;
    let (t, w) = (&mut tally, &mut network);
    assert_eq!(
        raw::generate(&words[..68], &mut run, t, w, &mut load, &mut out),
        1
    );
    assert_eq!(
        raw::generate(&words, &mut run[..short], t, w, &mut load, &mut out),
        1
    );
    assert_eq!(
        raw::generate(&words, &mut run, t, w, &mut load[..5], &mut out),
        1
    );
    assert_eq!(
        raw::generate_more(&mut run[..short], t, w, &mut load, &mut out),
        1
    );
    assert_eq!(
        raw::generate_more(&mut run, t, w, &mut load[..5], &mut out),
        1
    );
    assert_eq!(raw::generate_more(&mut run, t, w, &mut load, &mut out), 9);
    assert_eq!(
        raw::generate(&words, &mut run, &mut t[1..], w, &mut load, &mut out),
        6
    );
    assert_eq!(
        (run, tally, network),
        ([7; raw::RUN_WORDS], [7; 24], [7; 64])
    );
    assert_eq!((load, out), ([7; raw::LOAD_WORDS + 1], [7; 100]));
    let (t, w) = (&mut tally, &mut network);
    assert_eq!(
        raw::generate(&words, &mut run, t, w, &mut load, &mut out[..37]),
        0
    );
    assert_eq!(load, [7, 7, 7, 0, 29, 1, 7]);
    assert_eq!(&out[..30], b"(open 4 2 4 6 3 0 (0 0 0 0))\n\x07");
}
