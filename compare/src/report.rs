//! A report of traffic: its lines, what they tell, and whether it adds up.

use crate::text::KINDS;
use reference::{ByKind, Sums, Traffic};

/// The lines of a report.
pub fn lines(Traffic { sums, held }: &Traffic) -> String {
    let Sums {
        sent,
        delivered,
        waits,
    } = sums;
    let total = |numbers: &ByKind| {
        numbers
            .iter()
            .fold(0_u64, |sum, one| sum.wrapping_add(*one))
    };
    let row = |kind, sent, delivered, held| format!("(traffic {kind} {sent} {delivered} {held})\n");
    let mut text = String::new();
    for (place, kind) in KINDS.into_iter().enumerate() {
        text += &row(kind, sent[place], delivered[place], held[place]);
    }
    let delivered = total(delivered);
    text += &row("all", total(sent), delivered, total(held));
    text + &format!("(waits {waits} {delivered})\n")
}

/// The report that lines tell by their numbers, if those are as many as a
/// report has.
pub fn read(lines: &[u8]) -> Option<Traffic> {
    let numbers: Vec<u64> = String::from_utf8_lossy(lines)
        .split(|letter: char| !letter.is_ascii_digit())
        .filter_map(|word| word.parse().ok())
        .collect();
    let (rows, &[waits, _]) = numbers.as_chunks::<3>() else {
        return None;
    };
    let &[view, vote, vc, qc, _] = rows else {
        return None;
    };
    let [sent, delivered, held] = [0, 1, 2].map(|place| [view, vote, vc, qc].map(|row| row[place]));
    let sums = Sums {
        sent,
        delivered,
        waits,
    };
    Some(Traffic { sums, held })
}

/// "sent is delivered plus held, kind by kind": so it is wherever a run was
/// opened, and need not be in one that was handed in.
pub fn adds_up(Traffic { sums, held }: &Traffic) -> bool {
    let adds = |kind: usize| sums.delivered[kind].checked_add(held[kind]) == Some(sums.sent[kind]);
    (0..4).all(adds)
}

#[cfg(test)]
mod tests {
    use super::*;

    /// A report that adds up, each of its numbers another one.
    fn good() -> Traffic {
        let sums = Sums {
            sent: [11, 22, 33, 44],
            delivered: [1, 3, 5, 7],
            waits: 99,
        };
        let held = [10, 19, 28, 37];
        Traffic { sums, held }
    }

    #[test]
    fn lines_are_read_as_what_they_were() {
        let text = lines(&good());
        let told = "(traffic view 11 1 10)\n(traffic vote 22 3 19)\n(traffic vc 33 5 28)\n\
                    (traffic qc 44 7 37)\n(traffic all 110 16 94)\n(waits 99 16)\n";
        assert_eq!(text, told);
        assert_eq!(read(text.as_bytes()), Some(good()));
        let twice = told.repeat(2);
        for text in ["", "(waits 99 16)\n", &told[..90], &twice] {
            assert_eq!(read(text.as_bytes()), None);
        }
    }

    #[test]
    fn a_report_that_does_not_add_up_is_seen() {
        assert!(adds_up(&good()));
        for kind in 0..4 {
            let spoilt = |spoil: fn(&mut Traffic, usize)| {
                let mut report = good();
                spoil(&mut report, kind);
                report
            };
            assert!(!adds_up(&spoilt(|report, kind| report.held[kind] += 1)));
            assert!(!adds_up(
                &spoilt(|report, kind| report.sums.sent[kind] -= 1)
            ));
            assert!(!adds_up(&spoilt(|report, kind| {
                report.sums.delivered[kind] = u64::MAX;
                report.held[kind] = report.sums.sent[kind] + 1;
            })));
        }
    }
}
