//! What is about to be compared, written to a file first, so that a crash or a
//! hang leaves it behind.

use crate::program;
use std::fs::{self, File};
use std::io::{Seek, Write};

/// Leaves bytes in a file of that name. If it cannot be written, only what a
/// crash would leave is missing.
pub fn leave(name: &str, bytes: &[u8]) {
    let directory = program::directory();
    let written =
        fs::create_dir_all(&directory).and_then(|()| fs::write(directory.join(name), bytes));
    drop(written);
}

/// A file that one short line after the other is left in, each in place of the
/// one before.
pub struct Line {
    file: Option<File>,
}

impl Line {
    /// The file of that name.
    pub fn new(name: &str) -> Self {
        let directory = program::directory();
        let made = fs::create_dir_all(&directory).and_then(|()| File::create(directory.join(name)));
        Self { file: made.ok() }
    }

    /// Leaves a line.
    pub fn leave(&mut self, line: &str) {
        if let Some(file) = &mut self.file {
            let written = file.rewind().and_then(|()| writeln!(file, "{line:<80}"));
            drop(written);
        }
    }
}
