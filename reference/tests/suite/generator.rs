//! The generator program: its words, its load, and what it refuses.

use reference::{run_generator, simulate, Ended};

/// What comes of a call, and what it writes to either output.
fn called(words: &[&[u8]]) -> (Ended, Vec<u8>, String) {
    let (mut out, mut errors) = (Vec::new(), Vec::new());
    let ended = run_generator(words, &mut out, &mut errors).expect("a list takes any bytes");
    (ended, out, String::from_utf8_lossy(&errors).into_owned())
}

/// An opening without k, and the same as a load begins with it.
const OPENING: &[u8] = b"(open 4 2 4 6 0 (0 0 0 0))";
const WRITTEN: &[u8] = b"(open 4 2 4 6 3 0 (0 0 0 0))\n";

#[test]
fn a_load_of_several_pieces_is_accepted_whole() {
    let opening = b"(open 4 1000 10000 900 2 (0 0 0 0))";
    let (ended, load, errors) = called(&[opening, b"40000", b"7", b"18446744073709551615"]);
    assert_eq!((ended, errors.as_str()), (Ended::Loaded, ""));
    assert!(load.len() > 5 << 16);
    let printed = simulate(&load);
    let lines = load.split_inclusive(|&byte| byte == b'\n').count();
    assert_eq!(lines, 40_002);
    let mut answers = printed.split_inclusive(|&byte| byte == b'\n');
    assert!(answers
        .by_ref()
        .take(lines)
        .all(|line| line.starts_with(b"(done ")));
    assert!(answers.all(|line| line.starts_with(b"(cabinet ")));
}

#[test]
fn a_short_load() {
    let (ended, load, errors) = called(&[OPENING, b"2", b"1", b"1"]);
    let expected =
        "(open 4 2 4 6 3 0 (0 0 0 0))\n(deliver (vote 0 1))\n(settle)\n(deliver (view 0 3))\n";
    assert_eq!(String::from_utf8_lossy(&load), expected);
    assert_eq!((ended, errors.as_str()), (Ended::Loaded, ""));
}

#[test]
fn refused_openings_are_told() {
    for (opening, check) in [
        (&b"(open 3 2 4 6 0 (0 0 0))"[..], 2),
        (b"(open 4 2 3 6 0 (0 0 0 0))", 3),
        (b"(open 4 2 7 6 2 0 (0 0 0 0))", 3),
        (b"(open 4 2 4 7 0 (0 0 0 0))", 4),
        (b"(open 4 2 4 9 9 0 (0 0 0 0))", 4),
        (b"(open 4 2 4 6 16 (0 0 0 0))", 5),
        (b"(open 4 2 4 903 0 (0 0 0 0))", 6),
        (b"(open 4 2 4 6 0 (12 0 0 0))", 7),
        (b"(open 4 2 4 6 0 (5 0 0 0))", 8),
        (b"(open 4 2 4 6 0 (0 0 0))", 1),
        (b"(open 4 2 4 6 (0 0 0 0))", 1),
        (b"(open 4 2 4 6 3 0 0 (0 0 0 0))", 1),
        (b"(open 4 2 4 6 0 (0 0 0 0))\n", 1),
        (b"(tick 1)", 1),
        (b"\xFF", 1),
        (b"", 1),
    ] {
        let told = format!("(refused {check})\n");
        let answer = called(&[opening, b"5", b"0", b"1"]);
        assert_eq!(answer, (Ended::Refused, Vec::new(), told));
    }
}

#[test]
fn wrong_words_are_told() {
    let misused = |words: &[&[u8]]| {
        let (ended, load, errors) = called(words);
        assert_eq!((ended, load), (Ended::Misused, Vec::new()), "{words:?}");
        assert!(errors.starts_with("usage: ") && errors.lines().count() == 1);
        assert!(errors.ends_with('\n'));
    };
    for wrong in [
        &b"18446744073709551616"[..],
        b"99999999999999999999999",
        b"-1",
        b"+1",
        b"00",
        b"07",
        b"",
        b" 1",
        b"1 ",
        b"1\n",
        b"x",
        b"0x1",
        b"1_0",
    ] {
        misused(&[OPENING, wrong, b"0", b"0"]);
        misused(&[OPENING, b"0", wrong, b"0"]);
        misused(&[OPENING, b"0", b"0", wrong]);
        misused(&[b"(tick 1)", b"0", b"0", wrong]);
    }
    misused(&[]);
    misused(&[OPENING, b"0", b"0"]);
    misused(&[OPENING, b"0", b"0", b"0", b"0"]);
    let most = b"18446744073709551615";
    let (ended, load, _) = called(&[OPENING, b"0", most, most]);
    assert_eq!((ended, &load[..]), (Ended::Loaded, WRITTEN));
}
