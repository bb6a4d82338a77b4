//! Held runs carried over: the words of a message, there and back, what goes on with them, and what is refused.

use super::*;

impl Simulator {
    fn pack(&self, words: usize) -> (Result<(), u64>, Vec<u64>) {
        let mut target = vec![u64::MAX; words];
        let answer = pack(&self.run, &self.tally, &self.network, &mut target);
        (answer, target)
    }

    fn unpack(&self, words: usize) -> (Result<(), u64>, Vec<u64>) {
        let mut target = vec![u64::MAX; words];
        let answer = unpack(&self.run, &self.tally, &self.network, &mut target);
        (answer, target)
    }

    /// The same run with another network.
    fn with(&self, network: Vec<u64>) -> Simulator {
        Simulator {
            network,
            ..self.clone()
        }
    }
}

/// A run after the printed schedule: ten messages, sent at 0.
fn held() -> Simulator {
    let mut simulator = Simulator::opened(&setup(&[0, 0, 0, 0], 0));
    for event in [
        Event::Deliver(message(Kind::View, 0, 0)),
        Event::Deliver(message(Kind::View, 0, 1)),
        Event::Tick(3),
    ] {
        simulator.apply(event);
    }
    simulator
}

#[test]
fn messages_stand_in_two_words_and_in_four() {
    let simulator = held();
    let names = [64, 65, 2, 66, 3, 67, 128, 129, 130, 131];
    let packed: Vec<u64> = names.into_iter().flat_map(|name| [name, 0]).collect();
    assert_eq!(simulator.network[..20], packed);
    let (answer, wide) = simulator.unpack(43);
    assert_eq!(answer, Ok(()));
    let four: Vec<u64> = names
        .into_iter()
        .flat_map(|name| [name / 64 + 1, 0, name % 64, 0])
        .collect();
    assert_eq!((&wide[..40], &wide[40..]), (&four[..], &[0; 3][..]));
    let (answer, back) = simulator.with(wide).pack(NETWORK_WORDS);
    assert_eq!((answer, &back), (Ok(()), &simulator.network));
}

#[test]
fn the_highest_message_is_carried_over() {
    let plan = Plan {
        n: 64,
        delta: 1,
        gamma: 2,
        views: 6000,
        k: 3,
    };
    let mut simulator = Simulator::new();
    simulator.tally = vec![0; 24000];
    simulator.open(&Setup::new(plan));
    let (held, time) = (simulator.run.held() as usize, 11999);
    simulator.run.words_mut()[raw::RUN_TIME] = time;
    simulator.run.words_mut()[raw::RUN_HELD] += 1;
    let packed = [3071743, time];
    simulator.network[2 * held..][..2].copy_from_slice(&packed);
    let (answer, wide) = simulator.unpack(1024);
    assert_eq!(answer, Ok(()));
    assert_eq!(wide[4 * held..][..4], [4, 5999, 63, time]);
    let (answer, back) = simulator.with(wide).pack(NETWORK_WORDS);
    assert_eq!((answer, back), (Ok(()), simulator.network));
}

#[test]
fn a_run_carried_over_goes_on() {
    let mut simulator = held();
    let mut carried = simulator.with(simulator.unpack(80).1);
    carried.network = carried.pack(61).1;
    for event in [
        Event::Settle,
        Event::Deliver(message(Kind::Vc, 0, 3)),
        Event::Tick(4),
    ] {
        assert_eq!(carried.apply(event), simulator.apply(event));
    }
    assert_eq!(
        (&carried.run, &carried.tally),
        (&simulator.run, &simulator.tally)
    );
    let held = 2 * simulator.run.held() as usize;
    assert_eq!(carried.network[..held], simulator.network[..held]);
}

#[test]
fn a_target_of_the_wrong_length_is_left() {
    let packed = held();
    let wide = packed.with(packed.unpack(40).1);
    let kept = |words| (Err(6), vec![u64::MAX; words]);
    for words in [0, 15, 16, 19, 524289] {
        assert_eq!(wide.pack(words), kept(words), "{words}");
    }
    for words in [0, 31, 32, 39, 524289] {
        assert_eq!(packed.unpack(words), kept(words), "{words}");
    }
    for words in [20, 21, 524288] {
        assert_eq!(wide.pack(words).0, Ok(()));
    }
    for words in [40, 43, 524288] {
        assert_eq!(packed.unpack(words).0, Ok(()));
    }
    // Nothing is held where the first leader is faulty: check 6 alone says how many words there must be.
    let mut empty = Simulator::opened(&setup(&[0, 0, 0, 0], 1));
    let answers = [empty.pack(15).0, empty.pack(16).0];
    assert_eq!(answers, [Err(6), Ok(())]);
    let answers = [empty.unpack(31).0, empty.unpack(32).0];
    assert_eq!(answers, [Err(6), Ok(())]);
    for held in [9, 1 << 62, 1 << 63, u64::MAX] {
        empty.run.words_mut()[raw::RUN_HELD] = held;
        assert_eq!((empty.pack(16).0, empty.unpack(32).0), (Err(6), Err(6)));
    }
}

#[test]
fn unsound_runs_are_not_carried_over() {
    let packed = held();
    let wide = packed.with(packed.unpack(43).1);
    for (word, value) in [
        (0, 3),
        (raw::RUN_TIME, 24),
        (raw::RUN_SETTLED, 2),
        (raw::RUN_GST, 1),
        (raw::RUN_HELD, 9),
        (raw::RUN_CLOCKS, 12),
        (raw::RUN_VIEWS, 1),
    ] {
        let spoilt = |good: &Simulator| {
            let mut simulator = good.clone();
            simulator.run.words_mut()[word] = value;
            simulator
        };
        assert_eq!(spoilt(&wide).pack(60), (Err(9), vec![u64::MAX; 60]));
        assert_eq!(spoilt(&packed).unpack(90), (Err(9), vec![u64::MAX; 90]));
    }
    let spoilt = |good: &Simulator, place: usize, value| {
        let mut simulator = good.clone();
        simulator.network[place] = value;
        simulator
    };
    // Kinds, a view, a processor, a sending time, words behind the last message.
    for (place, value) in [(0, 0), (0, 5), (1, 6), (2, 4), (3, 4), (40, 1), (42, 1)] {
        assert_eq!(spoilt(&wide, place, value).pack(60).0, Err(9));
    }
    for (place, value) in [(0, 256), (0, 511), (0, 3072), (0, 68), (1, 4), (20, 1)] {
        assert_eq!(spoilt(&packed, place, value).unpack(60).0, Err(9));
    }
    let mut short = packed.clone();
    short.tally.truncate(23);
    assert_eq!((short.unpack(60).0, short.unpack(31).0), (Err(9), Err(6)));
}

#[test]
fn short_runs_are_refused_first() {
    let Simulator {
        run,
        tally,
        network,
    } = held();
    let short = &run.words()[..raw::RUN_WORDS - 1];
    let mut target = [7; 60];
    for call in [raw::pack, raw::unpack] {
        assert_eq!(call(short, &tally, &network, &mut target), 1);
        assert_eq!(call(&[], &[], &[], &mut []), 1);
    }
    assert_eq!(target, [7; 60]);
    // Words behind a run's are not read, and what is only read may overlap.
    let longer = [&run.words()[..], &[7, 7]].concat();
    assert_eq!(raw::unpack(&longer, &network, &network, &mut target), 0);
}

#[test]
fn no_wide_network_holds_more_than_131072() {
    let mut simulator = held();
    simulator.network = vec![0; 524288];
    for (held, answer) in [(131072, Ok(())), (131073, Err(6))] {
        simulator.run.words_mut()[raw::RUN_HELD] = held;
        assert_eq!(simulator.unpack(524288).0, answer, "{held}");
    }
}
