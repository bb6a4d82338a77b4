//! Reports of a run's traffic: printed schedules, waits, sums handed in, and what is refused.

use super::*;

impl Simulator {
    fn traffic(&self) -> Result<Traffic, u64> {
        self.run.traffic(&self.tally, &self.network)
    }

    /// The report of a run that was opened and moved by events only: sent is delivered plus held, and the run's words say the same.
    fn sound_traffic(&self) -> Traffic {
        let report = self.traffic().expect("the run is sound");
        let [sent, delivered, held] =
            [report.sent, report.delivered, report.held].map(|counts| counts.words());
        for kind in 0..raw::KINDS {
            assert_eq!(sent[kind], delivered[kind] + held[kind]);
        }
        assert_eq!(
            (self.run.sent(), self.run.delivered(), self.run.waits()),
            (report.sent, report.delivered, report.waits)
        );
        assert_eq!(report.held.all(), self.run.held());
        report
    }

    /// Applies an event that is done whole.
    fn done(&mut self, event: Event) {
        let answer = self.apply(event);
        assert!(
            matches!(answer, Answer::Done { .. }),
            "{event:?} {answer:?}"
        );
    }

    fn deliver(&mut self, kind: Kind, view: u64, processor: u64) {
        self.done(Event::Deliver(message(kind, view, processor)));
    }
}

fn counts(view: u64, vote: u64, vc: u64, qc: u64) -> Counts {
    Counts { view, vote, vc, qc }
}

/// A report by its counts and the sum of waits.
fn report(sent: Counts, delivered: Counts, held: Counts, waits: u64) -> Traffic {
    Traffic {
        sent,
        delivered,
        held,
        waits,
    }
}

#[test]
fn reports_the_printed_schedule() {
    let mut simulator = Simulator::opened(&setup(&[0, 0, 0, 0], 0));
    let opened = report(
        counts(4, 4, 0, 0),
        counts(0, 0, 0, 0),
        counts(4, 4, 0, 0),
        0,
    );
    assert_eq!(simulator.sound_traffic(), opened);
    simulator.deliver(Kind::View, 0, 0);
    simulator.deliver(Kind::View, 0, 1);
    for event in [Event::Tick(3), Event::Settle, Event::Tick(3)] {
        simulator.apply(event);
    }
    let expected = report(
        counts(4, 4, 4, 0),
        counts(2, 0, 0, 0),
        counts(2, 4, 4, 0),
        0,
    );
    assert_eq!(simulator.sound_traffic(), expected);
}

#[test]
fn waits_are_the_times_in_flight() {
    let mut simulator = Simulator::opened(&setup(&[0, 0, 0, 0], 0));
    simulator.done(Event::Tick(1));
    for p in 0..4 {
        simulator.deliver(Kind::View, 0, p);
    }
    simulator.done(Event::Tick(2));
    for p in 0..4 {
        simulator.deliver(Kind::Vote, 0, p);
    }
    // Sent at 1 and delivered at 3, and sent at 3 and delivered at 4.
    simulator.deliver(Kind::Vc, 0, 2);
    simulator.done(Event::Tick(1));
    simulator.deliver(Kind::Qc, 0, 1);
    let expected = report(
        counts(4, 5, 4, 4),
        counts(4, 4, 1, 1),
        counts(0, 1, 3, 3),
        4 + 4 * 3 + 2 + 1,
    );
    assert_eq!(simulator.sound_traffic(), expected);
}

#[test]
fn counts_are_told_by_kind() {
    // Four different numbers, so that no kind can stand for another.
    let four = counts(5, 6, 8, 12);
    assert_eq!(four.words(), [5, 6, 8, 12]);
    assert_eq!(Counts::from_words(four.words()), four);
    let kinds = [Kind::View, Kind::Vote, Kind::Vc, Kind::Qc];
    assert_eq!(kinds.map(|kind| four.of(kind)), four.words());
    assert_eq!(four.all(), 31);
    let told = Traffic::from_words(&std::array::from_fn(|place| place as u64));
    let rising = |from| counts(from, from + 1, from + 2, from + 3);
    assert_eq!(told, report(rising(0), rising(4), rising(8), 12));
}

#[test]
fn a_later_opening_starts_the_sums_anew() {
    let mut simulator = Simulator::opened(&setup(&[0, 0, 0, 0], 0));
    simulator.done(Event::Tick(2));
    simulator.deliver(Kind::Vote, 0, 0);
    let kept = simulator.clone();
    assert_eq!(simulator.open(&setup(&[5, 0, 0, 0], 0)), Answer::Refused(8));
    assert_eq!(simulator, kept);
    simulator.open(&setup(&[0, 0, 0, 0], 8));
    let three = counts(3, 3, 0, 0);
    assert_eq!(
        simulator.sound_traffic(),
        report(three, Counts::default(), three, 0)
    );
}

#[test]
fn faulty_processors_post_nothing_and_get_nothing() {
    // Nothing is sent to a faulty leader.
    let mut silent = Simulator::opened(&setup(&[0, 0, 0, 0], 1));
    silent.done(Event::Sign(message(Kind::Vote, 0, 0)));
    assert_eq!(silent.sound_traffic(), Traffic::default());
    let mut simulator = Simulator::opened(&setup(&[0, 0, 0, 0], 8));
    simulator.done(Event::Sign(message(Kind::Vote, 0, 3)));
    simulator.deliver(Kind::View, 0, 0);
    // The certificate that a signature forms is sent to the three others; shown, it is not delivered.
    simulator.done(Event::Sign(message(Kind::View, 0, 3)));
    simulator.done(Event::Show(message(Kind::Vc, 0, 1)));
    let expected = report(
        counts(3, 3, 3, 0),
        counts(1, 0, 0, 0),
        counts(2, 3, 3, 0),
        0,
    );
    assert_eq!(simulator.sound_traffic(), expected);
}

#[test]
fn settling_and_stopped_ticks_keep_the_sums() {
    let mut simulator = Simulator::opened(&setup(&[0, 0, 0, 0], 0));
    simulator.done(Event::Tick(3));
    simulator.deliver(Kind::Vote, 0, 1);
    simulator.done(Event::Settle);
    simulator.deliver(Kind::Vote, 0, 2);
    assert_eq!(simulator.sound_traffic().waits, 6);
    let mut simulator = Simulator::opened(&setup(&[11, 11, 11, 11], 0));
    simulator.done(Event::Settle);
    let stopped = Answer::Stopped {
        ticks: 2,
        held: 16,
        check: 16,
    };
    assert_eq!(simulator.apply(Event::Tick(9)), stopped);
    assert_eq!(simulator.sound_traffic().sent, counts(8, 8, 0, 0));
}

#[test]
fn a_refused_delivery_counts_nothing() {
    let mut simulator = Simulator::new();
    simulator.network.truncate(16);
    simulator.open(&setup(&[0, 0, 0, 0], 0));
    simulator.deliver(Kind::View, 0, 0);
    let kept = simulator.clone();
    // Four certificates have no room; the message is not held any more.
    for (processor, check) in [(1, 18), (0, 13)] {
        let again = Event::Deliver(message(Kind::View, 0, processor));
        assert_eq!(simulator.apply(again), Answer::Refused(check));
    }
    assert_eq!(simulator, kept);
    assert_eq!(simulator.sound_traffic().delivered, counts(1, 0, 0, 0));
}

#[test]
fn of_equal_messages_the_first_was_in_flight() {
    let mut simulator = Simulator::opened(&setup(&[0, 0, 0, 0], 0));
    simulator.done(Event::Tick(3));
    simulator.network[16..18].copy_from_slice(&[1, 2]);
    simulator.run.words_mut()[raw::RUN_HELD] = 9;
    for waits in [3, 4] {
        simulator.deliver(Kind::View, 0, 1);
        assert_eq!(simulator.run.waits(), waits);
    }
}

#[test]
fn sums_handed_in_go_unchecked_and_wrap() {
    let mut simulator = Simulator::opened(&setup(&[0, 0, 0, 0], 0));
    simulator.run.words_mut()[raw::RUN_SENT..].fill(u64::MAX);
    let most = counts(u64::MAX, u64::MAX, u64::MAX, u64::MAX);
    let expected = report(most, most, counts(4, 4, 0, 0), u64::MAX);
    assert_eq!(simulator.traffic(), Ok(expected));
    assert_eq!(most.all(), 0_u64.wrapping_sub(4));
    simulator.done(Event::Tick(3));
    simulator.deliver(Kind::View, 0, 0);
    simulator.deliver(Kind::View, 0, 1);
    let mut expected = report(most, most, counts(2, 4, 4, 0), 5);
    (expected.sent.vc, expected.delivered.view) = (3, 1);
    assert_eq!(simulator.traffic(), Ok(expected));
}

#[test]
fn reports_of_unsound_runs_are_refused() {
    let good = Simulator::opened(&setup(&[0, 0, 0, 0], 0));
    let mut unsound = vec![Simulator::new()];
    for (word, value) in [
        (0, 3),
        (raw::RUN_TIME, 24),
        (raw::RUN_SETTLED, 2),
        (raw::RUN_GST, 1),
        (raw::RUN_HELD, 7),
        (raw::RUN_CLOCKS, 12),
        (raw::RUN_VIEWS, 1),
    ] {
        let mut spoilt = good.clone();
        spoilt.run.words_mut()[word] = value;
        unsound.push(spoilt);
    }
    let mut spoilt = good.clone();
    spoilt.network[0] = 256;
    unsound.push(spoilt);
    for simulator in unsound {
        assert_eq!(simulator.traffic(), Err(9));
    }
    assert_eq!(good.run.traffic(&good.tally[..23], &good.network), Err(9));
    assert_eq!(good.run.traffic(&good.tally, &good.network[..15]), Err(9));
}

#[test]
fn short_slices_get_no_report() {
    let mut simulator = Simulator::opened(&setup(&[0, 0, 0, 0], 0));
    simulator.done(Event::Tick(1));
    simulator.deliver(Kind::View, 0, 3);
    let (run, tally, network) = (simulator.run.words(), &simulator.tally, &simulator.network);
    let mut words = [7; 16];
    for length in 0..raw::TRAFFIC_WORDS {
        assert_eq!(raw::traffic(run, tally, network, &mut words[..length]), 1);
    }
    let short = &run[..raw::RUN_WORDS - 1];
    assert_eq!(raw::traffic(short, tally, network, &mut words), 1);
    assert_eq!(raw::traffic(&[], &[], &[], &mut []), 1);
    // Too few words come before an unsound run.
    assert_eq!(raw::traffic(run, &[], network, &mut words[..12]), 1);
    assert_eq!(raw::traffic(run, &[], network, &mut words), 9);
    assert_eq!(words, [7; 16]);
    assert_eq!(raw::traffic(run, tally, network, &mut words), 0);
    let expected = [4, 4, 0, 0, 1, 0, 0, 0, 3, 4, 0, 0, 1, 7, 7, 7];
    assert_eq!(words, expected);
    let longer = [&run[..], &[7, 7]].concat();
    assert_eq!(raw::traffic(&longer, tally, network, &mut words[..13]), 0);
    assert_eq!(words, expected);
}

#[test]
fn what_is_only_read_may_overlap() {
    let simulator = Simulator::opened(&setup(&[0, 0, 0, 0], 0));
    let (run, network) = (simulator.run.words(), &simulator.network);
    let mut words = [7; raw::TRAFFIC_WORDS];
    assert_eq!(raw::traffic(run, run, run, &mut words), 9);
    assert_eq!(words, [7; raw::TRAFFIC_WORDS]);
    // No check asks what the tally's words are.
    assert_eq!(raw::traffic(run, network, network, &mut words), 0);
    assert_eq!(Ok(Traffic::from_words(&words)), simulator.traffic());
}

#[test]
fn events_together_and_loads_count_alike() {
    let mut state = 17;
    let mut waited = 0;
    for _ in 0..60 {
        let setup = setup(&[0, 1, 2, 3], 0);
        let mut load = Load::new(300, draw(&mut state) % 300, draw(&mut state));
        let (text, simulator) = Simulator::generated(&setup, &mut load);
        let lines = text.split(|&byte| byte == b'\n').skip(1);
        let events: Vec<Event> = lines
            .filter_map(|line| match read_line(line) {
                Some(Line::Event(event)) => Some(event),
                _ => None,
            })
            .collect();
        let mut other = Simulator::opened(&setup);
        other.apply_all(&events);
        assert_eq!(other.sound_traffic(), simulator.sound_traffic());
        waited += u32::from(simulator.run.waits() > 0);
    }
    assert!(waited > 30, "{waited}");
}
