//! Events applied together: as one by one, in their own words, and refused whole where there is no run.

use super::*;

/// An event of any form, most often about a message that an opening has sent.
fn drawn(state: &mut u64) -> Event {
    let kinds = [Kind::View, Kind::Vote, Kind::Vc, Kind::Qc];
    let kind = kinds[draw(state) as usize % 4];
    let m = message(kind, draw(state) % 4, draw(state) % 5);
    match draw(state) % 12 {
        0 => Event::Sign(m),
        1 => Event::Show(m),
        2 => Event::Settle,
        3..=5 => Event::Tick(draw(state) % 4),
        _ => Event::Deliver(m),
    }
}

#[test]
fn as_one_by_one() {
    let mut state = 3;
    let (mut done, mut stopped, mut refused) = (0, 0, 0);
    for round in 0..300 {
        let mut one = Simulator::opened(&setup(&[3, 0, 0, 1], 8 * (round % 2)));
        match round % 8 {
            // Runs unsound at once or after some ticks, and such as have a settled word of no run.
            6 => one.run.words_mut()[raw::RUN_TIME] = draw(&mut state) % 48,
            7 => one.run.words_mut()[draw(&mut state) as usize % 9] ^= 2,
            _ => {}
        }
        let mut all = one.clone();
        let count = draw(&mut state) % 60;
        let events: Vec<Event> = (0..count).map(|_| drawn(&mut state)).collect();
        let answers: Vec<Answer> = events.iter().map(|&event| one.apply(event)).collect();
        assert_eq!(all.apply_all(&events), answers, "{events:?}");
        assert_eq!(all, one);
        for answer in answers {
            match answer {
                Answer::Done { .. } => done += 1,
                Answer::Stopped { .. } => stopped += 1,
                Answer::Refused(_) => refused += 1,
            }
        }
    }
    assert!(
        done > 500 && stopped > 5 && refused > 500,
        "{done} {stopped} {refused}"
    );
}

#[test]
fn answers_stand_where_the_events_stood() {
    let mut simulator = Simulator::opened(&setup(&[0, 0, 0, 0], 0));
    let mut words = [
        [1, 1, 0, 0],
        [1, 1, 0, 0],
        [u64::MAX, 1, 0, 0],
        [3, 2, 0, 0],
        [4, 9, 9, 9],
        [5, 7, 3, 7],
        [5, 0, 1, 0],
    ];
    assert_eq!(simulator.apply_words(words.as_flattened_mut()), 0);
    let answers = [
        [1, 0, 0, 7],
        [1, 13, 0, 7],
        [u64::MAX, 1, 0, 7],
        [3, 1, 0, 7],
        [4, 0, 0, 7],
        [5, 16, 2, 7],
        [5, 16, 0, 7],
    ];
    assert_eq!(words, answers);
    let stopped = Answer::Stopped {
        ticks: 2,
        held: 7,
        check: 16,
    };
    assert_eq!(
        Answer::from_words(words[0]),
        Answer::Done { ticks: 0, held: 7 }
    );
    assert_eq!(Answer::from_words(words[5]), stopped);
    assert_eq!(Answer::from_words(words[6]), Answer::Refused(16));
}

#[test]
fn a_time_beyond_the_clocks_refuses_those_behind() {
    let mut simulator = Simulator::opened(&setup(&[0, 0, 0, 0], 0));
    simulator.run.words_mut()[raw::RUN_TIME] = PLAN.views * PLAN.gamma - 1;
    let mut words = [[4, 0, 0, 0], [5, 0, 1, 0], [5, 0, 0, 0], [1, 1, 0, 0]];
    assert_eq!(simulator.apply_words(words.as_flattened_mut()), 0);
    assert_eq!(
        words,
        [[4, 0, 0, 8], [5, 0, 1, 8], [5, 1, 0, 8], [1, 9, 0, 8]]
    );
    assert_eq!(simulator.run.time(), PLAN.views * PLAN.gamma);
}

#[test]
fn words_behind_the_last_event_stay() {
    for behind in 0..4 {
        let mut simulator = Simulator::opened(&setup(&[0, 0, 0, 0], 0));
        let mut words = [5, 0, 1, 0, 5, 0, 1];
        assert_eq!(simulator.apply_words(&mut words[..4 + behind]), 0);
        assert_eq!(words, [5, 0, 1, 8, 5, 0, 1]);
        assert_eq!(simulator.apply_words(&mut words[4..4 + behind]), 0);
        assert_eq!((words, simulator.run.time()), ([5, 0, 1, 8, 5, 0, 1], 1));
    }
}

#[test]
fn no_run_refuses_the_whole_call() {
    let mut simulator = Simulator::opened(&setup(&[0, 0, 0, 0], 0));
    simulator.run.words_mut()[raw::RUN_SETTLED] = 2;
    let kept = simulator.clone();
    let mut words = [5, 0, 1, 0, 5];
    assert_eq!(simulator.apply_words(&mut words), 9);
    assert_eq!(simulator.apply_words(&mut []), 9);
    let short = &mut simulator.run.words_mut()[..raw::RUN_WORDS - 1];
    let (tally, network) = (&mut simulator.tally, &mut simulator.network);
    assert_eq!(raw::apply_all(short, tally, network, &mut words), 1);
    assert_eq!(raw::apply_all(&mut [], &mut [], &mut [], &mut words), 1);
    assert_eq!((words, &simulator), ([5, 0, 1, 0, 5], &kept));
    let answers = simulator.apply_all(&[Event::Tick(1), Event::Tick(0)]);
    assert_eq!(answers, [Answer::Refused(9), Answer::Refused(1)]);
    assert_eq!(simulator, kept);
}
