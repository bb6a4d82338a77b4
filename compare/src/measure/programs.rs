//! Whole programs: a schedule from a file, the printout thrown away.

use super::{timed, try_in_turn, Row};
use crate::openings;
use crate::program;
use crate::schedules;
use crate::text;
use crate::trace::Trace;
use reference::LONGEST_LINE;
use std::env;
use std::fs::{self, File};
use std::io::{Error, Result};
use std::path::{Path, PathBuf};
use std::process::{Command, Stdio};
use std::time::Duration;

/// The lines of a schedule, at least.
pub const LINES: u64 = 60_000;

/// The bytes of the files of long lines, at most.
const BYTES: usize = 12_000_000;

/// One row per number of processors, and two of long lines.
pub fn rows() -> Result<Vec<Row>> {
    let reference = reference("reference_simulate")?;
    let mut rows = Vec::new();
    for n in [4, 16, 64] {
        let trace = schedules::steady(n, LINES);
        let what = format!("program, n = {n}: {}", told(&trace));
        rows.push(row(what, &format!("{n}"), trace.text(), &reference)?);
    }
    for (name, line, told) in [
        ("openings", opening(), "64 clocks, refused by 3"),
        ("longest", no_form(), "no form, refused by 1"),
    ] {
        let text = [line.as_slice(), b"\n"].concat();
        let (lines, bytes) = (BYTES / text.len(), line.len());
        let what = format!("program, long lines: {lines} of {bytes} bytes, {told}");
        rows.push(row(what, name, &text.repeat(lines), &reference)?);
    }
    Ok(rows)
}

/// The longest opening, whose numbers are all wide.
fn opening() -> Vec<u8> {
    text::opening(&openings::longest(), 64)
}

/// As many printable bytes as a line may have.
fn no_form() -> Vec<u8> {
    (b' '..=b'~').cycle().take(LONGEST_LINE).collect()
}

/// A schedule through both programs, from the file of that name.
fn row(what: String, name: &str, text: &[u8], reference: &Path) -> Result<Row> {
    let proved = &program::simulator();
    let file = program::directory().join(format!("bench_{name}.schedule"));
    fs::create_dir_all(program::directory())?;
    fs::write(&file, text)?;
    // Two programs that do not do the same cannot be set side by side.
    let printed = |path| program::run(path, text, 1 << 16);
    if printed(proved)? != printed(reference)? {
        return Err(Error::other("the programs print different things"));
    }
    let on_file = |path: &Path| {
        let mut command = Command::new(path);
        command.stdin(File::open(&file)?);
        timed_run(&mut command)
    };
    let times = try_in_turn(|| on_file(proved), || on_file(reference))?;
    Ok(Row::new(what, times.ratio()))
}

/// What a schedule is made of.
pub fn told(trace: &Trace) -> String {
    let counts = trace.counts();
    let share = |count: u64| 100 * count / counts.calls.max(1);
    let lines = || trace.text().split(|&byte| byte == b'\n');
    let starting = |word: &str| {
        let count = lines().filter(|line| line.starts_with(word.as_bytes()));
        share(count.count() as u64)
    };
    format!(
        "{} lines, {}% deliver, {}% tick, {}% sign, {}% show; {} openings; {}% accepted",
        counts.calls,
        starting("(deliver"),
        starting("(tick"),
        starting("(sign"),
        starting("(show"),
        counts.openings,
        share(counts.accepted)
    )
}

/// The time that a program needs, what it prints thrown away.
pub fn timed_run(command: &mut Command) -> Result<Duration> {
    command.stdout(Stdio::null());
    let mut ended = None;
    let time = timed(|| ended = Some(command.status()));
    match ended {
        Some(Ok(status)) if status.success() => Ok(time),
        Some(Err(error)) => Err(error),
        _ => Err(Error::other("a program failed")),
    }
}

/// Builds the reference's programs with optimisation, and answers where the one
/// of that name is.
pub fn reference(name: &str) -> Result<PathBuf> {
    let package = program::root().join("reference");
    let target = package.join("target");
    let cargo = env::var_os("CARGO").unwrap_or_else(|| "cargo".into());
    let status = Command::new(cargo)
        .args(["build", "--quiet", "--release", "--offline"])
        .arg("--manifest-path")
        .arg(package.join("Cargo.toml"))
        .arg("--target-dir")
        .arg(&target)
        .status()?;
    if status.success() {
        Ok(target.join("release").join(name))
    } else {
        Err(Error::other("the reference's programs could not be built"))
    }
}

#[cfg(test)]
mod tests {
    use super::*;
    use reference::simulate;

    #[test]
    fn long_lines_are_what_their_rows_say() {
        assert_eq!((opening().len(), no_form().len()), (1_460, 4_800));
        for (line, answer) in [(opening(), "(refused 3)\n"), (no_form(), "(refused 1)\n")] {
            let printed = simulate(&[line.as_slice(), b"\n"].concat().repeat(2));
            assert_eq!(String::from_utf8_lossy(&printed), answer.repeat(2));
        }
    }
}
