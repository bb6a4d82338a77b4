//! The simulator program's answers, line by line.

use crate::apply::apply_sound;
use crate::check;
use crate::message::Event;
use crate::opening::open;
use crate::print;
use crate::reader::{read_line, Reading};
use crate::run::{Answer, Run};
use crate::set;
use crate::traffic;

/// The tally words the program lends.
pub const TALLY_WORDS: usize = 3_600;
/// The network words the program lends.
pub const NETWORK_WORDS: usize = 2_048;

/// The program's run with its lent words: "lends 3,600 tally words and 2,048
/// network words".
#[derive(Clone, PartialEq, Eq, Debug)]
pub struct Session {
    opened: bool,
    run: Run,
    tally: Vec<u64>,
    network: Vec<u64>,
}

impl Default for Session {
    fn default() -> Self {
        Self::new()
    }
}

impl Session {
    /// The program before its first line.
    pub fn new() -> Self {
        Self::with_words(TALLY_WORDS, NETWORK_WORDS)
    }

    /// The same, but with other numbers of lent words.
    pub fn with_words(tally: usize, network: usize) -> Self {
        Self {
            opened: false,
            run: Run::unopened(),
            tally: vec![0; tally],
            network: vec![0; network],
        }
    }

    /// Answers one line, given without its newline.
    pub fn answer_line(&mut self, line: &[u8], out: &mut Vec<u8>) {
        match read_line(line) {
            Reading::Event(event) => self.answer_event(event, out),
            Reading::Opening(setup) => {
                // "A later accepted opening begins a new run in place of the
                // old; a refused one leaves the old run going."
                let answer = open(&setup, &mut self.run, &mut self.tally, &mut self.network);
                self.opened |= matches!(answer, Answer::Done { .. });
                print::answer(out, answer);
            }
            Reading::NoForm => self.answer_no_form(out),
        }
    }

    /// Answers a line that fails check 1.
    pub fn answer_no_form(&mut self, out: &mut Vec<u8>) {
        print::answer(out, Answer::Refused(check::NO_FORM));
    }

    /// "Before an accepted opening an event gets 9." After one, the run is
    /// sound at every event.
    fn answer_event(&mut self, event: Event, out: &mut Vec<u8>) {
        if !self.opened {
            print::answer(out, Answer::Refused(check::UNSOUND));
            return;
        }
        let answer = apply_sound(&mut self.run, event, &mut self.tally, &mut self.network);
        if let Event::Tick(_) = event {
            print::answer_to_ticks(out, answer, self.run.held);
        } else {
            print::answer(out, answer);
        }
    }

    /// "At the end come `(cabinet p view clock)` for each correct p, if a run
    /// is open."
    pub fn finish(&self, out: &mut Vec<u8>) {
        if !self.opened {
            return;
        }
        for processor in set::members(self.run.correct()) {
            let place = processor as usize;
            let numbers = [processor, self.run.views[place], self.run.clocks[place]];
            print::line(out, b"cabinet", &numbers);
        }
    }

    /// Prints the traffic of the run that is open, if one is open; it is sound.
    pub fn report(&self, out: &mut Vec<u8>) {
        if self.opened {
            traffic::print(out, &traffic::of_sound(&self.run, &self.network));
        }
    }

    /// Whether a run is open.
    pub const fn opened(&self) -> bool {
        self.opened
    }

    /// The run, `Run::unopened()` before an accepted opening.
    pub const fn run(&self) -> &Run {
        &self.run
    }

    /// The tally's words.
    pub fn tally(&self) -> &[u64] {
        &self.tally
    }

    /// The network's words.
    pub fn network(&self) -> &[u64] {
        &self.network
    }
}
