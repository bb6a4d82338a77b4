//! The simulator program: "reads lines from standard input" and prints one
//! answer a line, and the processors at the end.

#![forbid(unsafe_code)]

use reference::Stream;
use std::io::{self, ErrorKind, Read, Write};

/// The bytes read at once.
const PIECE: usize = 1 << 16;

fn main() -> io::Result<()> {
    let mut input = io::stdin().lock();
    let mut output = io::stdout().lock();
    let mut piece = vec![0; PIECE];
    let mut out = Vec::with_capacity(2 * PIECE);
    let mut stream = Stream::new();
    loop {
        match input.read(&mut piece) {
            Ok(0) => break,
            Ok(length) => stream.feed(&piece[..length], &mut out),
            Err(error) if error.kind() == ErrorKind::Interrupted => continue,
            Err(error) => return Err(error),
        }
        output.write_all(&out)?;
        output.flush()?;
        out.clear();
    }
    stream.finish(&mut out);
    output.write_all(&out)?;
    output.flush()
}
