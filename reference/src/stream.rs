//! Cutting an input into lines, in bounded memory.

use crate::newline::before_newline;
use crate::reader::LONGEST_LINE;
use crate::session::Session;

/// The bytes of an input after which answers that nobody reads are dropped.
const PIECE: usize = 1 << 12;

/// A session fed with bytes in pieces of any size.
#[derive(Clone, Default, Debug)]
pub struct Stream {
    session: Session,
    /// The front of a line whose newline has not come yet: one byte more than
    /// a line may have says as much as all that follow.
    pending: Vec<u8>,
}

impl Stream {
    /// A new session, nothing fed to it yet.
    pub fn new() -> Self {
        Self::default()
    }

    /// Answers each line that ends within these bytes.
    pub fn feed(&mut self, mut bytes: &[u8], out: &mut Vec<u8>) {
        while let (line, [_, behind @ ..]) = bytes.split_at(before_newline(bytes)) {
            if self.pending.is_empty() {
                self.session.answer_line(line, out);
            } else {
                self.keep(line);
                self.session.answer_line(&self.pending, out);
                self.pending.clear();
            }
            bytes = behind;
        }
        self.keep(bytes);
    }

    /// Ends the input: "bytes left after the last newline count as a line that
    /// fails check 1". Then come the processors.
    pub fn finish(&mut self, out: &mut Vec<u8>) {
        if !self.pending.is_empty() {
            self.session.answer_no_form(out);
            self.pending.clear();
        }
        self.session.finish(out);
    }

    /// The session fed.
    pub const fn session(&self) -> &Session {
        &self.session
    }

    /// Keeps bytes of a line whose newline has not come yet, as far as they
    /// tell whether the line is too long.
    fn keep(&mut self, bytes: &[u8]) {
        let room = LONGEST_LINE + 1 - self.pending.len();
        self.pending
            .extend_from_slice(&bytes[..bytes.len().min(room)]);
    }
}

/// The whole printout of a whole input.
pub fn simulate(input: &[u8]) -> Vec<u8> {
    let mut out = Vec::new();
    let mut stream = Stream::new();
    stream.feed(input, &mut out);
    stream.finish(&mut out);
    out
}

/// The whole report of a whole input: its lines are answered as `simulate`
/// answers them, none of the answers is printed, and at the end comes what
/// the run open then has sent, delivered and holds. Bytes left after the last
/// newline fail check 1, so they change nothing.
pub fn report_traffic(input: &[u8]) -> Vec<u8> {
    let (mut answers, mut out) = (Vec::new(), Vec::new());
    let mut stream = Stream::new();
    for piece in input.chunks(PIECE) {
        stream.feed(piece, &mut answers);
        answers.clear();
    }
    stream.session().report(&mut out);
    out
}
