//! The calls on words, each accepted and refused once.

use super::*;
use crate::words::{BYTES, FULL, SENT, STEP, WAITS};

/// n=4, delta 2, gamma 4, 6 views, 3 of them per leader, all clocks 0.
fn setup() -> Vec<u64> {
    let mut words = vec![0; SETUP_WORDS];
    words[..5].copy_from_slice(&[4, 2, 4, 6, 3]);
    words
}

#[test]
fn openings_and_events() {
    let (mut run, mut tally, mut network) = (vec![0; RUN_WORDS], vec![0; 24], vec![0; 64]);
    assert_eq!(
        open(
            &setup(),
            &mut run[..RUN_WORDS - 1],
            &mut tally,
            &mut network
        ),
        1
    );
    assert_eq!(open(&setup(), &mut run, &mut tally[..23], &mut network), 6);
    assert_eq!(open(&setup(), &mut run, &mut tally, &mut network), 0);
    assert_eq!((run[0], run[HELD], network[2]), (4, 8, 64));
    let mut call = |numbers| apply(&mut run, numbers, &mut tally, &mut network);
    assert_eq!(call([1, 5, 0, 0]), 1);
    assert_eq!(call([1, 1, 0, 0]), 0);
    assert_eq!(call([1, 1, 0, 0]), 13);
    assert_eq!(call([4, 77, 0, 99]), 0);
    assert_eq!(call([5, 0, 3, 0]), 16);
    assert_eq!((run[TIME], run[HELD]), (2, 7));
    run[SETTLED] = 2;
    assert_eq!(apply(&mut run, [5, 0, 1, 0], &mut tally, &mut network), 9);
    assert_eq!(apply(&mut run, [5, 0, 0, 0], &mut tally, &mut network), 1);
}

#[test]
fn events_together() {
    let (mut run, mut tally, mut network) = (vec![0; RUN_WORDS], vec![0; 24], vec![0; 64]);
    open(&setup(), &mut run, &mut tally, &mut network);
    let events = [4, 1, 2, 3, 5, 6, 3, 7, 6, 5, 4, 3, 1, 1, 0, 0, 5, 0, 9];
    let mut call = |run: &mut [u64]| {
        let mut words = events;
        let check = apply_all(run, &mut tally, &mut network, &mut words);
        (check, words)
    };
    assert_eq!(call(&mut run[..RUN_WORDS - 1]), (1, events));
    run[SETTLED] = 2;
    assert_eq!(call(&mut run[..SETTLED + 1]), (1, events));
    assert_eq!(call(&mut run), (9, events));
    run[SETTLED] = 0;
    let answers = [4, 0, 0, 8, 5, 16, 2, 8, 6, 1, 0, 8, 1, 0, 0, 7, 5, 0, 9];
    assert_eq!(call(&mut run), (0, answers));
    assert_eq!((run[TIME], run[HELD]), (2, 7));
    run[TIME] = 24;
    let answers = [4, 9, 0, 7, 5, 9, 0, 7, 6, 1, 0, 7, 1, 9, 0, 7, 5, 0, 9];
    assert_eq!(call(&mut run), (0, answers));
}

#[test]
fn loads() {
    let (mut run, mut tally, mut network) = (vec![7; RUN_WORDS], vec![0; 24], vec![0; 64]);
    let (mut load, mut out) = (vec![3, 0, 409, 7, 7, 7, 7], [b'x'; 60]);
    let before = (run.clone(), load.clone());
    let mut begin = |run: &mut [u64], load: &mut [u64], room: usize| {
        let out = &mut out[..room];
        generate(&setup(), run, &mut tally, &mut network, load, out)
    };
    assert_eq!(begin(&mut run[..RUN_WORDS - 1], &mut load, 60), 1);
    assert_eq!(begin(&mut run, &mut load[..5], 60), 1);
    assert_eq!((&run, &load), (&before.0, &before.1));
    assert_eq!(begin(&mut run, &mut load, 28), 0);
    assert_eq!((&run, &load[..]), (&before.0, &[3, 0, 409, 0, 0, 1, 7][..]));
    assert_eq!(begin(&mut run, &mut load, 40), 0);
    assert_eq!((load[STEP], load[BYTES], load[FULL]), (0, 38, 1));
    assert_eq!(&out[..40], b"(open 4 2 4 6 3 0 (0 0 0 0))\n(settle)\nxx");
    let mut go_on = |run: &mut [u64], load: &mut [u64]| {
        generate_more(run, &mut tally, &mut network, load, &mut out)
    };
    assert_eq!(go_on(&mut run[..RUN_WORDS - 1], &mut load), 1);
    assert_eq!(go_on(&mut run, &mut load[..5]), 1);
    run[SETTLED] = 2;
    assert_eq!(go_on(&mut run, &mut load), 9);
    run[SETTLED] = 1;
    assert_eq!(go_on(&mut run, &mut load), 0);
    assert_eq!(
        (run[TIME], load[STEP], load[BYTES], load[FULL]),
        (2, 3, 39, 0)
    );
    assert!(out.starts_with(b"(tick 1)\n(tick 1)\n(deliver (view 0 0))\n"));
}

#[test]
fn steps() {
    let plan = words::setup_of(&setup()).plan;
    let mut record = [0, 2, 0, 7];
    assert_eq!(step(plan, &mut record[..3], 4, 2), 1);
    assert_eq!(step(plan, &mut record, 1, 2), 1);
    assert_eq!(step(plan, &mut record, 4, 5), 17);
    assert_eq!(record, [0, 2, 0, 7]);
    assert_eq!(step(plan, &mut record, 4, 2), 0);
    assert_eq!(record, [0, 12, 3, 2]);
}

#[test]
fn lines() {
    let mut words = vec![7; READ_WORDS + 1];
    assert_eq!(read_line(b"(tick 5", &mut words), 1);
    assert_eq!(read_line(b"(tick 5)", &mut words[..73]), 1);
    assert!(words.iter().all(|&word| word == 7));
    assert_eq!(read_line(b"(tick 5)", &mut words), 0);
    assert_eq!(
        (&words[..4], words[4], words[74]),
        (&[5, 0, 5, 0][..], 0, 7)
    );
    let mut bytes = [1; 10];
    assert_eq!(write_event([5, 3, 5, 3], &mut bytes), 9);
    assert_eq!(&bytes, b"(tick 5)\n\x01");
    assert_eq!(write_event([5, 0, 0, 0], &mut bytes), 0);
    assert_eq!(write_setup(&setup()[..69], &mut bytes), 0);
    assert_eq!(write_setup(&setup(), &mut [0; 29]), 29);
    assert_eq!(read_line(b"(open 4 2 4 6 0 (0 0 0 0))", &mut words), 0);
    assert_eq!((words[0], &words[4..74]), (OPENING, &setup()[..]));
}

#[test]
fn reports() {
    let (mut run, mut tally, mut network) = (vec![7; RUN_WORDS], vec![0; 24], vec![0; 64]);
    open(&setup(), &mut run, &mut tally, &mut network);
    for numbers in [[5, 0, 3, 0], [1, 1, 0, 0], [1, 1, 0, 2]] {
        assert_eq!(apply(&mut run, numbers, &mut tally, &mut network), 0);
    }
    let mut report = [7; TRAFFIC_WORDS + 1];
    let mut call = |run: &[u64], room: usize| traffic(run, &tally, &network, &mut report[..room]);
    assert_eq!(call(&run[..RUN_WORDS - 1], 14), 1);
    assert_eq!(call(&run, 12), 1);
    run[SETTLED] = 2;
    assert_eq!(call(&run, 12), 1);
    assert_eq!(call(&run, 13), 9);
    run[SETTLED] = 0;
    run[TIME] = 24;
    assert_eq!(call(&run, 13), 9);
    run[TIME] = 3;
    assert_eq!(call(&run, 14), 0);
    assert_eq!(report, [4, 4, 4, 0, 2, 0, 0, 0, 2, 4, 4, 0, 6, 7]);
    assert_eq!(report[..8], run[SENT..WAITS]);
}

#[test]
fn runs_carried_over() {
    let (mut run, mut tally, mut network) = (vec![7; RUN_WORDS], vec![0; 24], vec![0; 17]);
    open(&setup(), &mut run, &mut tally, &mut network);
    let mut wide = [7; 35];
    assert_eq!(unpack(&run[..146], &tally, &network, &mut wide), 1);
    assert_eq!(unpack(&run, &tally, &network, &mut wide[..31]), 6);
    run[SETTLED] = 2;
    assert_eq!(unpack(&run, &tally, &network, &mut wide[..31]), 6);
    assert_eq!(unpack(&run, &tally, &network, &mut wide), 9);
    run[SETTLED] = 0;
    assert_eq!(unpack(&run, &tally[1..], &network, &mut wide), 9);
    assert_eq!(wide, [7; 35]);
    assert_eq!(unpack(&run, &tally, &network, &mut wide), 0);
    assert_eq!(
        (&wide[4..12], &wide[32..]),
        (&[2, 0, 0, 0, 1, 0, 1, 0][..], &[0; 3][..])
    );
    let mut packed = [7; 17];
    assert_eq!(pack(&run, &tally, &network, &mut packed), 9);
    assert_eq!(pack(&run, &tally, &wide, &mut packed[..15]), 6);
    assert_eq!(packed, [7; 17]);
    assert_eq!(pack(&run, &tally, &wide, &mut packed), 0);
    assert_eq!(packed[..], network);
    let apply = |run: &mut [u64], tally: &mut [u64], network: &mut [u64]| {
        apply_in(Wide, run, [5, 0, 12, 0], tally, network)
    };
    assert_eq!(apply(&mut run, &mut tally, &mut wide), 18);
    assert_eq!(run[TIME], 11);
    assert_eq!(
        open_in(Wide, &setup(), &mut run, &mut tally, &mut wide[..31]),
        6
    );
}
