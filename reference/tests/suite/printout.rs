//! The printout of document 01 and the program's answers.

use reference::simulate;

const SCHEDULE: &str = "\
(open 4 2 4 6 0 (0 0 0 0))
(deliver (view 0 0))
(deliver (view 0 1))
(tick 3)
(settle)
(tick 3)
";

const PRINTED: &str = "\
(done 0 8)
(done 0 7)
(done 0 10)
(done 3 10)
(done 0 10)
(stopped 2 10 16)
(cabinet 0 0 5)
(cabinet 1 0 5)
(cabinet 2 0 5)
(cabinet 3 0 5)
";

fn prints(input: &str, output: &str) {
    let printed = simulate(input.as_bytes());
    assert_eq!(String::from_utf8_lossy(&printed), output);
}

#[test]
fn the_printout_of_document_01() {
    prints(SCHEDULE, PRINTED);
}

#[test]
fn an_empty_input_has_no_line() {
    prints("", "");
}

#[test]
fn an_event_before_an_opening_gets_9_and_a_bad_line_1() {
    prints(
        "(settle)\n(tick 3)\n(tick 0)\n(nothing)\n(deliver (qc 9 9))\n",
        "(refused 9)\n(refused 9)\n(refused 1)\n(refused 1)\n(refused 9)\n",
    );
}

#[test]
fn a_refused_opening_leaves_no_run_open() {
    prints(
        "(open 3 2 4 6 0 (0 0 0))\n(tick 1)\n",
        "(refused 2)\n(refused 9)\n",
    );
}

#[test]
fn a_refused_opening_leaves_the_old_run_going() {
    prints(
        "(open 4 2 4 6 0 (1 2 3 4))\n(open 4 2 4 7 0 (0 0 0 0))\n(tick 1)\n",
        "(done 0 8)\n(refused 4)\n(done 1 8)\n\
         (cabinet 0 0 2)\n(cabinet 1 0 3)\n(cabinet 2 0 4)\n(cabinet 3 0 5)\n",
    );
}

#[test]
fn a_later_accepted_opening_begins_a_new_run() {
    prints(
        "(open 4 2 4 6 0 (0 0 0 0))\n(settle)\n(tick 1)\n\
         (open 5 1 2 3 16 (1 1 1 1 99))\n(tick 1)\n(settle)\n",
        "(done 0 8)\n(done 0 8)\n(done 1 8)\n(done 0 8)\n(done 1 8)\n(done 0 8)\n\
         (cabinet 0 0 2)\n(cabinet 1 0 2)\n(cabinet 2 0 2)\n(cabinet 3 0 2)\n",
    );
}

#[test]
fn ticks_whose_first_is_refused_are_stopped_at_0() {
    prints(
        "(open 4 2 4 3 0 (11 11 11 11))\n(tick 5)\n(settle)\n(tick 5)\n",
        "(done 0 8)\n(stopped 0 8 17)\n(done 0 8)\n(stopped 0 8 17)\n\
         (cabinet 0 0 11)\n(cabinet 1 0 11)\n(cabinet 2 0 11)\n(cabinet 3 0 11)\n",
    );
}

#[test]
fn check_16_comes_before_17_in_a_printed_stop() {
    let mut input = String::from("(open 4 2 4 3 0 (9 9 9 9))\n(settle)\n(tick 9)\n(tick 9)\n");
    input.push_str("(deliver (qc 2 0))\n");
    prints(
        &input,
        "(done 0 8)\n(done 0 8)\n(stopped 2 8 16)\n(stopped 0 8 16)\n(refused 13)\n\
         (cabinet 0 0 11)\n(cabinet 1 0 11)\n(cabinet 2 0 11)\n(cabinet 3 0 11)\n",
    );
}

#[test]
fn the_program_lends_3600_tally_words() {
    prints("(open 4 1 2 903 0 (0 0 0 0))\n", "(refused 6)\n");
    let printed = simulate(b"(open 4 1 2 900 0 (0 0 0 0))\n");
    assert!(printed.starts_with(b"(done 0 8)\n"));
}

#[test]
fn the_program_lends_2048_network_words() {
    // 64 processors entering views 0, 3, 6 and so on to 21 send 1,024
    // messages, all that fit; the next initial view finds no room.
    let clocks = vec!["5"; 64].join(" ");
    let input = format!("(open 64 1 2 900 0 ({clocks}))\n(tick 1000)\n(tick 1)\n");
    let printed = simulate(input.as_bytes());
    let text = String::from_utf8_lossy(&printed);
    let lines: Vec<&str> = text.lines().take(4).collect();
    assert_eq!(
        lines,
        [
            "(done 0 128)",
            "(stopped 42 1024 18)",
            "(stopped 0 1024 18)",
            "(cabinet 0 21 47)"
        ]
    );
}
