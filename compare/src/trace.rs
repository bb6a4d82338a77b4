//! A schedule in the making: its text, and the run that the reference makes
//! of it under the watch of demand 3, its sums beside those of its history.

use crate::counts::Counts;
use crate::list::List;
use crate::reference_calls::guarded;
use crate::scene::Scene;
use crate::text::{self, Heading};
use reference::{apply, open, read_line, Answer, Event, Reading, Run, Setup};
use reference::{Traffic, NETWORK_WORDS, TALLY_WORDS};
use std::ops::Range;

/// A schedule and what the reference has made of it so far.
pub struct Trace {
    text: Vec<u8>,
    run: Run,
    tally: Vec<u64>,
    network: Vec<u64>,
    /// The events since the last accepted opening, if there was one.
    list: Option<List>,
    /// Where the line of the last accepted opening begins.
    opening: usize,
    counts: Counts,
    complaint: Option<Complaint>,
}

/// What was found wrong with the reference's answers themselves.
#[derive(Clone, Debug)]
pub struct Complaint {
    /// The part of the text that shows it: from the last accepted opening on.
    pub shown_by: Range<usize>,
    /// What it is.
    pub what: String,
}

impl Default for Trace {
    fn default() -> Self {
        Self::new()
    }
}

impl Trace {
    /// No line yet; the words lent are as many as the program lends.
    pub fn new() -> Self {
        Self {
            text: Vec::new(),
            run: Run::unopened(),
            tally: vec![0; TALLY_WORDS],
            network: vec![0; NETWORK_WORDS],
            list: None,
            opening: 0,
            counts: Counts::default(),
            complaint: None,
        }
    }

    /// The whole of a text, gone through line by line.
    pub fn of(text: &[u8]) -> Self {
        let mut trace = Self::new();
        for line in text.split_inclusive(|&byte| byte == b'\n') {
            match line.strip_suffix(b"\n") {
                Some(line) => _ = trace.line(line),
                None => trace.end(line),
            }
        }
        trace
    }

    /// The run as it is now.
    pub fn scene(&self) -> Scene<'_> {
        Scene {
            run: &self.run,
            tally: &self.tally,
            network: &self.network,
        }
    }

    /// Whether a run is open.
    pub const fn opened(&self) -> bool {
        self.list.is_some()
    }

    /// The report of the run that is open, as its history tells it.
    pub fn traffic(&self) -> Option<Traffic> {
        self.list.as_ref().map(List::traffic)
    }

    /// The text so far.
    pub fn text(&self) -> &[u8] {
        &self.text
    }

    /// The answers so far.
    pub const fn counts(&self) -> &Counts {
        &self.counts
    }

    /// The first complaint, of demand 3, of the sums or of a panic, if there was
    /// one.
    pub const fn complaint(&self) -> Option<&Complaint> {
        self.complaint.as_ref()
    }

    /// Adds the line of an event, and answers it.
    pub fn event(&mut self, event: Event) -> Answer {
        self.line(&text::event(event))
    }

    /// Adds the line of an opening with such a heading, and answers it.
    pub fn opening(&mut self, heading: Heading, setup: &Setup) -> Answer {
        self.line(&text::headed(heading, setup, setup.plan.n as usize))
    }

    /// Adds bytes and a newline, and answers the last line among them.
    pub fn line(&mut self, bytes: &[u8]) -> Answer {
        let mut last = Answer::Refused(1);
        for line in bytes.split(|&byte| byte == b'\n') {
            let start = self.text.len();
            self.text.extend_from_slice(line);
            self.text.push(b'\n');
            last = guarded(|| self.answer(line, start)).unwrap_or_else(|| self.give_up());
            self.counts.answer(&last);
            let taken = !matches!(last, Answer::Refused(_));
            self.counts.turns.line(line, taken);
        }
        last
    }

    /// Ends the text with bytes that no newline follows.
    pub fn end(&mut self, bytes: &[u8]) {
        if !bytes.is_empty() {
            self.text.extend_from_slice(bytes);
            self.counts.answer(&Answer::Refused(1));
        }
    }

    /// Answers a line that begins there in the text.
    fn answer(&mut self, line: &[u8], start: usize) -> Answer {
        match read_line(line) {
            Reading::NoForm => Answer::Refused(1),
            Reading::Opening(setup) => self.answer_opening(&setup, start),
            Reading::Event(event) => self.answer_event(event),
        }
    }

    fn answer_opening(&mut self, setup: &Setup, start: usize) -> Answer {
        self.counts.openings += 1;
        let answer = open(setup, &mut self.run, &mut self.tally, &mut self.network);
        let check = match answer {
            Answer::Refused(check) => check,
            _ => 0,
        };
        self.counts.turns.opening(setup, check);
        if check == 0 {
            let (list, kept) = List::opened(self.scene());
            self.list = Some(list);
            self.opening = start;
            self.counts.lists += 1;
            self.complain_unless(kept);
        }
        answer
    }

    fn answer_event(&mut self, event: Event) -> Answer {
        self.counts.events += 1;
        let Some(list) = &mut self.list else {
            return Answer::Refused(9);
        };
        let answer = apply(&mut self.run, event, &mut self.tally, &mut self.network);
        let scene = Scene {
            run: &self.run,
            tally: &self.tally,
            network: &self.network,
        };
        let kept = list.after(event, &answer, scene, &mut self.counts);
        self.complain_unless(kept);
        answer
    }

    /// After a panic no run is open any more: its words may be half written.
    fn give_up(&mut self) -> Answer {
        self.complain("the reference panicked".to_owned());
        self.run = Run::unopened();
        self.list = None;
        Answer::Refused(9)
    }

    /// Complains of what is not kept.
    fn complain_unless(&mut self, kept: Result<(), String>) {
        if let Err(what) = kept {
            self.complain(format!("of the reference, {what}"));
        }
    }

    fn complain(&mut self, what: String) {
        let shown_by = self.opening..self.text.len();
        self.complaint.get_or_insert(Complaint { shown_by, what });
    }
}

#[cfg(test)]
mod tests {
    use super::*;

    #[test]
    fn a_trace_answers_as_the_program_prints() {
        let mut trace = Trace::new();
        assert_eq!(trace.event(Event::Settle), Answer::Refused(9));
        let answer = trace.line(b"(open 4 2 4 6 0 (0 0 0 0))");
        assert_eq!(answer, Answer::Done { ticks: 0, held: 8 });
        trace.event(Event::Settle);
        let answer = trace.line(b"x\n(tick 3)");
        let stopped = Answer::Stopped {
            ticks: 2,
            held: 8,
            check: 16,
        };
        assert_eq!(answer, stopped);
        trace.end(b"(settle)");
        assert_eq!((trace.counts().calls, trace.counts().events), (6, 3));
        assert!(trace.opened() && trace.complaint().is_none());
        assert!(trace.text().ends_with(b"x\n(tick 3)\n(settle)"));
        let held = [4, 4, 0, 0];
        assert_eq!(trace.traffic().map(|traffic| traffic.held), Some(held));
        let again = Trace::of(trace.text());
        assert_eq!(again.counts().calls, 6);
        assert!(again.text() == trace.text());
    }

    #[test]
    fn sums_of_another_history_are_complained_of() {
        let mut trace = Trace::of(b"(open 4 2 4 6 0 (0 0 0 0))\n(settle)\n");
        assert!(trace.complaint().is_none());
        trace.run.sums.waits = 7;
        trace.event(Event::Tick(1));
        let complaint = trace.complaint().expect("nothing was delivered");
        let told = "of the reference, the history tells otherwise: ";
        assert!(complaint.what.starts_with(told), "{}", complaint.what);
    }

    #[test]
    fn a_complaint_is_shown_from_the_last_accepted_opening_on() {
        let mut trace = Trace::of(b"x\n(open 4 2 4 6 0 (0 0 0 0))\n(open 1 2 4 6 0 (0))\n");
        trace.give_up();
        let complaint = trace.complaint().expect("it was given up");
        assert_eq!(complaint.shown_by, 2..trace.text().len());
        assert!(!trace.opened());
    }
}
