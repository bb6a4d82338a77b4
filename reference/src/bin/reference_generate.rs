//! The generator program: writes the load of an opening, a number of steps, a
//! settling step and a seed.

#![forbid(unsafe_code)]

use reference::{run_generator, Ended};
use std::env;
use std::ffi::{OsStr, OsString};
use std::io::{self, Write};
use std::process::ExitCode;

fn main() -> io::Result<ExitCode> {
    let words: Vec<OsString> = env::args_os().skip(1).collect();
    let words: Vec<&[u8]> = words.iter().map(|word| bytes(word)).collect();
    let mut out = io::stdout().lock();
    let ended = run_generator(&words, &mut out, &mut io::stderr())?;
    out.flush()?;
    Ok(match ended {
        Ended::Loaded => ExitCode::SUCCESS,
        Ended::Refused => ExitCode::FAILURE,
        Ended::Misused => ExitCode::from(2),
    })
}

/// The bytes of a word, whatever they are.
fn bytes(word: &OsStr) -> &[u8] {
    word.as_encoded_bytes()
}
