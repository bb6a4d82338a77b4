//! Compares the proved simulator with the reference: through the programs and
//! through the library, and the search for newlines. The first difference ends it.

#![forbid(unsafe_code)]

use compare::difference::Difference;
use compare::options::{self, Options, USAGE};
use compare::readers::Readers;
use compare::summary::Summary;
use compare::{by_generator, by_library, by_program, by_search, program};
use std::fs;
use std::path::Path;
use std::process::ExitCode;

fn main() -> ExitCode {
    let words: Vec<String> = std::env::args().skip(1).collect();
    for (name, path) in [
        ("simulate", program::simulator()),
        ("generate", program::generator()),
        ("traffic", program::reporter()),
    ] {
        if !path.is_file() {
            eprintln!("target/bin/{name} is missing: `./fever compare` proves and builds it first");
            return ExitCode::from(2);
        }
    }
    let (simulator, reporter) = (program::simulator(), program::reporter());
    let readers = Readers::of(&simulator, &reporter);
    match options::parse(&words) {
        None => {
            eprintln!("{USAGE}");
            ExitCode::from(2)
        }
        Some(Options::Replay(file)) => replay(readers, &file),
        Some(Options::Compare { rounds, seed, gate }) => compare(readers, rounds, seed, gate),
    }
}

/// A comparison of so many rounds.
fn compare(readers: Readers, rounds: u64, seed: u64, gate: bool) -> ExitCode {
    match both_ways(readers, rounds, seed) {
        Err(difference) => tell(&difference),
        Ok(summary) => {
            print!("{summary}");
            match summary.missing() {
                Some(missing) if gate => {
                    println!("too little was compared: {missing}");
                    ExitCode::FAILURE
                }
                _ => ExitCode::SUCCESS,
            }
        }
    }
}

/// The search for newlines, then through the programs and through the library.
fn both_ways(readers: Readers, rounds: u64, seed: u64) -> Result<Summary, Difference> {
    Ok(Summary {
        rounds,
        search: by_search::compare(readers, seed, rounds)?,
        program: by_program::compare(readers, seed, rounds)?,
        generator: by_generator::compare(&program::generator(), readers, seed, rounds)?,
        library: by_library::compare(seed, rounds)?,
    })
}

/// One schedule through both programs that read schedules, watched.
fn replay(readers: Readers, file: &Path) -> ExitCode {
    let input = match fs::read(file) {
        Ok(input) => input,
        Err(error) => {
            eprintln!("{}: {error}", file.display());
            return ExitCode::from(2);
        }
    };
    match by_program::replay(readers, &input) {
        Err(difference) => tell(&difference),
        Ok(()) => {
            println!("no difference");
            ExitCode::SUCCESS
        }
    }
}

/// Prints a difference, and saves what shows it.
fn tell(difference: &Difference) -> ExitCode {
    println!("{}", difference.told());
    match difference.save(&program::directory()) {
        Ok(path) => println!("saved as {}", path.display()),
        Err(error) => println!("it could not be saved: {error}"),
    }
    ExitCode::FAILURE
}
