//! The proved programs that read schedules, each beside the reference: what both
//! print of one input, and a short input that shows where they differ.

use crate::difference::{first_line, Difference};
use crate::program::{self, Printout};
use crate::reference_calls::guarded;
use crate::report;
use crate::shorten::shorten;
use reference::{report_traffic, simulate};
use std::io;
use std::path::Path;

/// A proved program that reads schedules.
#[derive(Clone, Copy)]
pub struct Reader<'a> {
    /// Where it is.
    program: &'a Path,
    /// What the reference prints of a schedule.
    reference: fn(&[u8]) -> Vec<u8>,
    /// What it prints.
    prints: &'static str,
    /// Whether it answers each line of its input by one of its own; what it
    /// prints behind them, it prints at the end.
    by_line: bool,
}

/// The proved programs that read schedules.
#[derive(Clone, Copy)]
pub struct Readers<'a> {
    /// The one that runs them.
    pub simulator: Reader<'a>,
    /// The one that reports their traffic.
    pub reporter: Reader<'a>,
}

impl<'a> Readers<'a> {
    /// Those that are there.
    pub const fn of(simulator: &'a Path, reporter: &'a Path) -> Self {
        Self {
            simulator: Reader {
                program: simulator,
                reference: simulate,
                prints: "printouts",
                by_line: true,
            },
            reporter: Reader {
                program: reporter,
                reference: report_traffic,
                prints: "reports",
                by_line: false,
            },
        }
    }
}

/// Compares what is printed of one input, and answers it. An input on which the
/// program hangs is kept whole, since it would be waited for with every shorter
/// one.
pub fn compare_one(reader: Reader, input: &[u8], piece: usize) -> Result<Vec<u8>, Difference> {
    let (what, contents) = match differs(reader, input, piece) {
        Ok(Ok(printed)) => return Ok(printed),
        Ok(Err(what)) => shortened(reader, input, piece, what),
        Err(error) => (error.to_string(), input.to_vec()),
    };
    Err(shown_by(
        &contents,
        format!("{} differ: {what}", reader.prints),
    ))
}

/// Compares the report of one input, and answers it. It is of a run that was
/// opened, so that "sent is delivered plus held, kind by kind".
pub fn compare_report(reporter: Reader, input: &[u8], piece: usize) -> Result<Vec<u8>, Difference> {
    let printed = compare_one(reporter, input, piece)?;
    if report::read(&printed).is_some_and(|told| !report::adds_up(&told)) {
        let told = String::from_utf8_lossy(&printed);
        let what = format!("a report in which sent is not delivered plus held:\n{told}");
        return Err(shown_by(input, what));
    }
    Ok(printed)
}

/// The difference that a schedule shows.
pub fn shown_by(input: &[u8], what: String) -> Difference {
    Difference {
        what,
        name: "difference.schedule".to_owned(),
        contents: input.to_vec(),
    }
}

/// What differs, and which line of the input it answers, if one.
type Apart = (String, Option<usize>);

/// A shorter input of which different things are printed, behind what differs
/// there.
fn shortened(reader: Reader, input: &[u8], piece: usize, what: Apart) -> (String, Vec<u8>) {
    let shows = |input: &[u8]| matches!(differs(reader, input, piece), Ok(Err(_)));
    let cut = what.1.map_or(input.len(), |line| end_of_line(input, line));
    // What comes behind the first line that differs may be needed all the same.
    let alone = shows(&input[..cut]);
    let lines: Vec<&[u8]> = input[..if alone { cut } else { input.len() }]
        .split_inclusive(|&byte| byte == b'\n')
        .collect();
    let contents = shorten(lines, 600, |lines| shows(&lines.concat())).concat();
    let shorter = differs(reader, &contents, piece).ok().and_then(Result::err);
    (shorter.unwrap_or(what).0, contents)
}

/// What both print of an input, or what differs.
fn differs(reader: Reader, input: &[u8], piece: usize) -> io::Result<Result<Vec<u8>, Apart>> {
    let Printout { bytes, failure } = program::run(reader.program, input, piece)?;
    let Some(expected) = guarded(|| (reader.reference)(input)) else {
        return Ok(Err(("the reference panicked".to_owned(), None)));
    };
    let (line, told) = match (first_line(&bytes, "reference", &expected), failure) {
        (None, None) => return Ok(Ok(bytes)),
        (None, Some(failure)) => return Ok(Err((failure, None))),
        (Some((line, told)), None) => (line, told),
        (Some((line, told)), Some(failure)) => (line, format!("{told} ({failure})")),
    };
    let what = format!("line {}\n{told}", line + 1);
    Ok(Err((what, reader.by_line.then_some(line))))
}

/// Where a line of an input, counted from 0, ends.
fn end_of_line(input: &[u8], line: usize) -> usize {
    let mut newlines = input.iter().enumerate().filter(|(_, byte)| **byte == b'\n');
    newlines
        .nth(line)
        .map_or(input.len(), |(place, _)| place + 1)
}

#[cfg(test)]
mod tests {
    use super::*;

    #[test]
    fn lines_end_where_their_newlines_are() {
        assert_eq!(end_of_line(b"ab\nc\nd", 0), 3);
        assert_eq!(end_of_line(b"ab\nc\nd", 1), 5);
        assert_eq!(end_of_line(b"ab\nc\nd", 2), 6);
    }

    #[test]
    fn another_program_is_found_out_and_its_schedule_shortened() {
        let input = b"(settle)\n".repeat(50);
        let cat = Readers::of(Path::new("cat"), Path::new("cat")).simulator;
        let difference = compare_one(cat, &input, 100).expect_err("they differ");
        assert_eq!(difference.contents, b"(settle)\n");
        let told = "printouts differ: line 1\nproved: (settle)\nreference: (refused 9)";
        assert!(difference.what.contains(told), "{}", difference.what);
    }

    #[test]
    fn a_silent_program_reports_no_run_well() {
        let silent = Readers::of(Path::new("true"), Path::new("true")).reporter;
        let compare = |input| compare_report(silent, input, 100);
        assert_eq!(compare(b"(settle)\n").ok(), Some(vec![]));
        let opening = b"(open 4 2 4 6 0 (0 0 0 0))\n";
        let input = [&b"(settle)\n(tick 1)\n"[..], opening, b"(tick 1)\n(tick 1"].concat();
        let difference = compare(&input).expect_err("they differ");
        assert_eq!(difference.contents, opening);
        let told = "reports differ: line 1\nproved: nothing\nreference: (traffic view 4 0 4)";
        assert!(difference.what.contains(told), "{}", difference.what);
    }

    /// The line of a report has nothing to do with that line of the input.
    #[test]
    fn a_report_is_of_the_whole_input() {
        let input = b"(open 4 2 4 6 0 (0 0 0 0))\n(tick 1)\n(tick 1)\n(deliver (vote 0 1))\n";
        let other = Reader {
            program: Path::new("true"),
            reference: |input: &[u8]| match input.ends_with(b"(vote 0 1))\n") {
                true => b"a\n".to_vec(),
                false => Vec::new(),
            },
            prints: "reports",
            by_line: false,
        };
        let apart = differs(other, input, 100).expect("it runs");
        assert_eq!(apart.expect_err("they differ").1, None);
        let difference = compare_one(other, input, 100).expect_err("they differ");
        assert_eq!(difference.contents, b"(deliver (vote 0 1))\n");
    }

    #[test]
    fn a_report_that_does_not_add_up_is_found_out() {
        let echo = Reader {
            program: Path::new("cat"),
            reference: <[u8]>::to_vec,
            ..Readers::of(Path::new("cat"), Path::new("cat")).reporter
        };
        let good = "(traffic view 4 1 3)\n(traffic vote 4 0 4)\n(traffic vc 4 4 0)\n\
                    (traffic qc 0 0 0)\n(traffic all 12 5 7)\n(waits 3 5)\n";
        let compare = |report: &str| compare_report(echo, report.as_bytes(), 100);
        assert_eq!(compare(good).ok(), Some(good.as_bytes().to_vec()));
        for (row, other) in [("view 4 1 3", "view 4 1 4"), ("vc 4 4 0", "vc 4 0 0")] {
            let report = good.replace(row, other);
            let difference = compare(&report).expect_err("it does not add up");
            assert!(difference.what.contains("is not delivered plus held"));
            assert_eq!(difference.contents, report.as_bytes());
        }
    }
}
