//! Words and bytes: too few of them, ones behind those that are touched, numbers that are no event, words that are no run.

use super::*;

#[test]
fn an_opening_does_not_judge_the_run_at_hand() {
    let mut state = 1;
    let mut simulator = Simulator::new();
    for word in simulator.run.words_mut() {
        *word = draw(&mut state);
    }
    let kept = simulator.clone();
    assert_eq!(simulator.apply(Event::Settle), Answer::Refused(9));
    assert_eq!(simulator.open(&setup(&[99], 0)), Answer::Refused(7));
    assert_eq!(simulator, kept);
    simulator.open(&setup(&[1, 2, 3, 4], 0));
    assert_eq!(simulator, Simulator::opened(&setup(&[1, 2, 3, 4], 0)));
}

#[test]
fn a_settled_word_above_one_is_unsound() {
    let mut simulator = Simulator::opened(&setup(&[0, 0, 0, 0], 0));
    simulator.run.words_mut()[raw::RUN_SETTLED] = 2;
    let kept = simulator.clone();
    assert_eq!(simulator.apply(Event::Tick(0)), Answer::Refused(1));
    assert_eq!(simulator.apply(Event::Tick(1)), Answer::Refused(9));
    assert_eq!(simulator, kept);
}

#[test]
fn a_table_ends_before_what_stands_behind_it() {
    // Behind the clocks come the views, behind the views the sums.
    let words = std::array::from_fn(|place| 1000 + place as u64);
    let run = Run::from_words(words);
    assert_eq!((run.clock(63), run.view(63)), (1073, 1137));
    assert_eq!((run.view(0), run.sent().view), (1074, 1138));
    assert_eq!((run.plan().k, run.faulty()), (1004, 1005));
    assert_eq!((run.clock(64), run.view(64)), (0, 0));
    assert_eq!((run.clock(usize::MAX), run.view(usize::MAX)), (0, 0));
}

#[test]
fn short_slices_are_refused_and_kept() {
    let words = setup(&[0, 0, 0, 0], 0).words();
    let (mut run, mut tally, mut network) = ([7; raw::RUN_WORDS], [7; 24], [7; 64]);
    let short = raw::RUN_WORDS - 1;
    assert_eq!(
        raw::open(&words[..69], &mut run, &mut tally, &mut network),
        1
    );
    assert_eq!(
        raw::open(&words, &mut run[..short], &mut tally, &mut network),
        1
    );
    assert_eq!(
        raw::open(&words, &mut run, &mut tally[1..], &mut network),
        6
    );
    assert_eq!(
        raw::open(&words, &mut run, &mut tally, &mut network[..15]),
        6
    );
    assert_eq!(
        raw::apply(&mut run[..short], 4, 0, 0, 0, &mut tally, &mut network),
        1
    );
    assert_eq!(raw::apply(&mut [], 0, 0, 0, 0, &mut [], &mut []), 1);
    assert_eq!(
        (run, tally, network),
        ([7; raw::RUN_WORDS], [7; 24], [7; 64])
    );
    let mut record = [0, 2, 0];
    assert_eq!(raw::step(4, 2, 4, 6, 3, &mut record, 0, 0), 1);
    assert_eq!(record, [0, 2, 0]);
    let mut reading = [7; raw::READING_WORDS];
    assert_eq!(raw::read_line(b"(settle)", &mut reading[..73]), 1);
    assert_eq!(raw::read_line(b"(settle) ", &mut reading), 1);
    assert_eq!(reading, [7; raw::READING_WORDS]);
    let mut out = [7; 9];
    assert_eq!(raw::write_event(4, 0, 0, 0, &mut out[..8]), 0);
    assert_eq!(raw::write_setup(&words[..69], &mut out), 0);
    assert_eq!(raw::write_setup(&words, &mut out), 0);
    assert_eq!(out, [7; 9]);
}

#[test]
fn numbers_that_are_no_event() {
    let kept = Simulator::opened(&setup(&[0, 0, 0, 0], 0));
    let mut simulator = kept.clone();
    let mut out = [7; 64];
    for (form, kind) in [
        (0, 1),
        (6, 1),
        (u64::MAX, 1),
        (1, 0),
        (1, 5),
        (2, 3),
        (3, 2),
    ] {
        let run = simulator.run.words_mut();
        assert_eq!(
            raw::apply(
                run,
                form,
                kind,
                0,
                0,
                &mut simulator.tally,
                &mut simulator.network
            ),
            1
        );
        assert_eq!(raw::write_event(form, kind, 0, 0, &mut out), 0);
    }
    assert_eq!((simulator, out), (kept.clone(), [7; 64]));
    for input in [1, 2, 5, u64::MAX] {
        let mut record = [0, 2, 0, 9];
        assert_eq!(raw::step(4, 2, 4, 6, 3, &mut record, input, 0), 1);
        assert_eq!(record, [0, 2, 0, 9]);
    }
    let (mut settled, mut other) = (kept.clone(), kept);
    settled.apply(Event::Settle);
    let run = other.run.words_mut();
    assert_eq!(
        raw::apply(run, 4, 9, 8, 7, &mut other.tally, &mut other.network),
        0
    );
    assert_eq!(settled, other);
}

#[test]
fn words_behind_are_untouched() {
    let words = setup(&[0, 0, 0, 0], 0).words();
    let (mut run, mut tally, mut network) = ([7; raw::RUN_WORDS + 2], [7; 26], [7; 64]);
    assert_eq!(raw::open(&words, &mut run, &mut tally, &mut network), 0);
    assert_eq!(
        raw::apply(&mut run, 5, 0, 2, 0, &mut tally, &mut network),
        0
    );
    assert_eq!((run[raw::RUN_TIME], run[raw::RUN_HELD]), (2, 8));
    assert_eq!(
        (&run[raw::RUN_WORDS..], &tally[24..]),
        (&[7; 2][..], &[7; 2][..])
    );
    let mut record = [0, 2, 0, 9, 7];
    assert_eq!(raw::step(4, 2, 4, 6, 3, &mut record, 4, 0), 0);
    assert_eq!(record, [0, 4, 1, 1, 7]);
    let mut reading = [7; raw::READING_WORDS + 1];
    assert_eq!(raw::read_line(b"(tick 8)", &mut reading), 0);
    assert_eq!(reading[..4], [5, 0, 8, 0]);
    assert!(reading[4..raw::READING_WORDS].iter().all(|&word| word == 0));
    assert_eq!(reading[raw::READING_WORDS], 7);
    let mut out = [7; 12];
    assert_eq!(raw::write_event(5, 9, 8, 9, &mut out), 9);
    assert_eq!(&out, b"(tick 8)\n\x07\x07\x07");
}
