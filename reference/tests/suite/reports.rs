//! What is printed of a schedule's traffic.

use reference::report_traffic;

/// What the program prints.
fn reports(input: &[u8], expected: &str) {
    let printed = report_traffic(input);
    assert_eq!(String::from_utf8_lossy(&printed), expected);
}

const OPENING: &str = "(open 4 2 4 6 0 (0 0 0 0))\n";

/// What the program prints of such an opening alone.
const OPENED: &str = "(traffic view 4 0 4)\n(traffic vote 4 0 4)\n(traffic vc 0 0 0)\n\
                      (traffic qc 0 0 0)\n(traffic all 8 0 8)\n(waits 0 0)\n";

#[test]
fn the_printed_report() {
    let schedule = format!(
        "{OPENING}(deliver (view 0 0))\n(deliver (view 0 1))\n(tick 3)\n(settle)\n(tick 3)\n"
    );
    let expected = "(traffic view 4 2 2)\n(traffic vote 4 0 4)\n(traffic vc 4 0 4)\n\
                    (traffic qc 0 0 0)\n(traffic all 12 2 10)\n(waits 0 2)\n";
    reports(schedule.as_bytes(), expected);
    let later = format!("{schedule}(deliver (vote 0 3))\n(deliver (vc 0 1))\n(deliver (vc 0 1))\n");
    let expected = "(traffic view 4 2 2)\n(traffic vote 4 1 3)\n(traffic vc 4 1 3)\n\
                    (traffic qc 0 0 0)\n(traffic all 12 4 8)\n(waits 10 4)\n";
    reports(later.as_bytes(), expected);
}

#[test]
fn without_a_run_nothing_is_printed() {
    reports(b"", "");
    reports(b"(settle)\n(tick 3)\nx\n\n", "");
    reports(b"(open 3 2 4 6 0 (0 0 0))\n", "");
    // No newline follows: it fails check 1.
    reports(OPENING.trim_end().as_bytes(), "");
}

#[test]
fn the_run_open_at_the_end_is_reported() {
    reports(OPENING.as_bytes(), OPENED);
    let refused = format!("{OPENING}(open 4 2 4 7 0 (0 0 0 0))\n(tick 0)\n(sign (vc 0 0))\n");
    reports(refused.as_bytes(), OPENED);
    let unended = format!("{OPENING}(deliver (view 0 0))");
    reports(unended.as_bytes(), OPENED);
    let long = format!("{OPENING}{:4801}\n{:9000}", "(settle)", "(tick 1)");
    reports(long.as_bytes(), OPENED);
    let again = format!("{OPENING}(tick 2)\n(deliver (view 0 0))\n{OPENING}");
    reports(again.as_bytes(), OPENED);
    let other = format!("{again}(open 5 1 2 3 1 (9 0 0 0 0))\n");
    let nothing = "(traffic view 0 0 0)\n(traffic vote 0 0 0)\n(traffic vc 0 0 0)\n\
                   (traffic qc 0 0 0)\n(traffic all 0 0 0)\n(waits 0 0)\n";
    reports(other.as_bytes(), nothing);
}
