//! Each call made of both sides.

use super::*;

fn unopened() -> State {
    let lent = |length| Lent::new(&vec![0; length], &[5, 5]);
    State {
        run: lent(RUN_WORDS),
        tally: lent(24),
        network: lent(32),
        ..State::default()
    }
}

/// n=4, delta 2, gamma 4, 6 views, 3 of them per leader, all clocks 0.
fn opening() -> Call {
    let mut words = vec![4, 2, 4, 6, 3];
    words.resize(words::SETUP_WORDS, 0);
    Call::Open(words)
}

#[test]
fn both_sides_open_and_tick() {
    let mut state = unopened();
    assert_eq!(state.both(&Call::Apply([5, 0, 1, 0])).ok(), Some(9));
    assert_eq!(state, unopened());
    assert_eq!(state.both(&opening()).ok(), Some(0));
    assert_eq!(state.both(&Call::Apply([4, 0, 0, 0])).ok(), Some(0));
    assert_eq!(state.both(&Call::Apply([5, 0, 9, 0])).ok(), Some(16));
    let run = state.decoded().expect("all words");
    assert_eq!((run.time, run.held), (2, 8));
}

#[test]
fn both_sides_apply_events_together() {
    let mut state = unopened();
    state.both(&opening()).expect("both open");
    state.events = Lent::new(&[4, 0, 0, 0, 5, 0, 9, 0, 0, 0], &[0, 0]);
    assert_eq!(state.both(&Call::ApplyAll).ok(), Some(0));
    let answers = [4, 0, 0, 8, 5, 16, 2, 8, 0, 0, 0, 0];
    assert_eq!(state.events.all(), answers);
}

#[test]
fn both_sides_make_a_load() {
    let mut state = unopened();
    state.load = Lent::new(&[3, 0, 409, 7, 7, 7], &[7]);
    state.out = Lent::new(b"xxxxxxxxxxxxxxxxxxxxxxxxxxxxxxxxxxxxxxxxx", b"yy");
    let Call::Open(setup) = opening() else { return };
    assert_eq!(state.both(&Call::Generate(setup)).ok(), Some(0));
    let line = b"(open 4 2 4 6 3 0 (0 0 0 0))\n(settle)\nxxxyy";
    assert_eq!((state.out.all(), state.load.all()[4]), (&line[..], 38));
    assert_eq!(state.both(&Call::GenerateMore).ok(), Some(0));
    assert_eq!(
        state.load.all()[2..],
        [3_819_887_198_217_498_758, 3, 39, 0, 7]
    );
}

#[test]
fn both_sides_report() {
    let mut state = unopened();
    state.report = Lent::new(&[7; 13], &[7]);
    assert_eq!(state.both(&Call::Traffic).ok(), Some(9));
    state.both(&opening()).expect("both open");
    assert_eq!(state.both(&Call::Traffic).ok(), Some(0));
    let report = [4, 4, 0, 0, 0, 0, 0, 0, 4, 4, 0, 0, 0, 7];
    assert_eq!(state.report.all(), report);
}

#[test]
fn a_word_that_differs_is_named() {
    let (one, mut other) = (unopened(), unopened());
    assert_eq!(one.told_apart(&other), None);
    other.out = Lent::new(b"ab", b"c");
    let told = one.told_apart(&other).expect("they differ");
    assert!(told.contains("byte 0 of the lines"), "{told}");
    other.network.front_mut()[3] = 7;
    let told = one.told_apart(&other).expect("they differ");
    assert!(told.contains("word 3 of the network"), "{told}");
    let difference = one.shows(&opening(), &told);
    assert!(difference.contents.starts_with(b"Open([4, 2, 4, 6, 3"));
}

#[test]
fn both_sides_carry_a_run_over_and_back() {
    let mut state = unopened();
    state.both(&opening()).expect("both open");
    let kept = state.network.clone();
    state.target = Lent::new(&[7; 35], &[7]);
    assert_eq!(state.both(&Call::Unpack).ok(), Some(0));
    assert_eq!(state.target.all()[4..8], [2, 0, 0, 0]);
    assert_eq!(state.target.all()[32..], [0, 0, 0, 7]);
    state.network = Lent::new(state.target.front(), &[]);
    state.target = Lent::new(&[7; 15], &[]);
    assert_eq!(state.both(&Call::Pack).ok(), Some(6));
    state.target = Lent::new(&[7; 32], &[5, 5]);
    assert_eq!(state.both(&Call::Pack).ok(), Some(0));
    assert_eq!(state.target, kept);
    assert_eq!(state.both(&Call::Unpack).ok(), Some(9));
}
