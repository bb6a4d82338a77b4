//! The comparison through the program that makes loads: what it writes, byte
//! for byte, the report of each load by itself, and that the simulator accepts
//! every line of all of them.

mod misuse;
pub mod words;

use self::misuse::misused;
use self::words::Words;
use crate::counts::Counts;
use crate::difference::{first_line, Difference};
use crate::draws::Draws;
use crate::pending;
use crate::program::{self, Called};
use crate::readers::{self, Reader, Readers};
use crate::reference_calls::guarded;
use crate::report;
use crate::retell::Told;
use reference::{read_line, run_generator, Ended, Load, Reading};
use std::path::Path;

/// A sort of calls: the words of one.
type Sort = fn(&mut Draws) -> Words;

/// The sorts, and how many calls of each make one round.
const SORTS: [(Sort, u64); 3] = [(words::short, 20), (words::ending, 20), (words::long, 1)];
/// Calls with wrong words in one round.
const WRONG: u64 = 4;
/// The bytes in which loads are handed to the programs that read them.
const PIECE: usize = 65_536;

/// Compares so many rounds of loads and of calls with wrong words.
pub fn compare(
    generator: &Path,
    readers: Readers,
    seed: u64,
    rounds: u64,
) -> Result<Counts, Difference> {
    let mut draws = Draws::new(seed);
    let mut counts = Counts::default();
    let mut usage = None;
    for _ in 0..rounds {
        let mut drawn = draws.branch();
        let mut loads = Vec::new();
        for (sort, calls) in SORTS {
            for _ in 0..calls {
                let words = sort(&mut drawn);
                let written = load(generator, &words, &mut counts)?;
                reported(readers.reporter, &written, &mut counts)?;
                loads.extend(written);
            }
        }
        accepted(readers.simulator, &loads)?;
        for _ in 0..WRONG {
            let words = words::wrong(&mut drawn);
            misused(generator, &words, &mut usage)?;
            counts.calls += 1;
            counts.loads.misused += 1;
        }
    }
    Ok(counts)
}

/// Compares the load of a call, or that it is refused alike; answers what was
/// written.
fn load(generator: &Path, words: &[Vec<u8>], counts: &mut Counts) -> Result<Vec<u8>, Difference> {
    let (out, errors, ended) = compare_one(generator, words)?;
    counts.openings += 1;
    counts.loads.begun += 1;
    counts.turns.line(&words[0], ended == Ended::Loaded);
    if let (Ended::Loaded, Reading::Opening(setup)) = (ended, read_line(&words[0])) {
        counts.turns.opening(&setup, 0);
    }
    if ended == Ended::Refused {
        let check = check_of(&errors);
        counts.call(check);
        counts.loads.unbegun[check as usize] += 1;
        return Ok(out);
    }
    counts.call(0);
    let (events, ticks) = (counts.loads.events(), counts.loads.ticks());
    let told = guarded(|| retold(words, counts)).unwrap_or_default();
    counts.events += counts.loads.events() - events;
    counts.ticks += counts.loads.ticks() - ticks;
    match first_line(&out, "told again", &told) {
        None => Ok(out),
        Some((line, apart)) => {
            let what = format!("it differs when told again: line {}\n{apart}", line + 1);
            Err(shown_by(words, what))
        }
    }
}

/// The check that a refusal names.
fn check_of(errors: &[u8]) -> u64 {
    let digits = errors.iter().filter(|byte| byte.is_ascii_digit());
    digits.fold(0, |check, digit| 10 * check + u64::from(digit - b'0'))
}

/// The load of words that both accepted, told again.
fn retold(words: &[Vec<u8>], counts: &mut Counts) -> Vec<u8> {
    let number = |word: &[u8]| String::from_utf8_lossy(word).parse().unwrap_or(0);
    let Reading::Opening(setup) = read_line(&words[0]) else {
        return Vec::new();
    };
    let mut told = Told::of_program(Load {
        steps: number(&words[1]),
        settle: number(&words[2]),
        seed: number(&words[3]),
        step: 0,
    });
    told.begin(&setup, usize::MAX, &mut counts.loads);
    told.text
}

/// Calls the program and the reference, and answers what both wrote.
fn compare_one(
    generator: &Path,
    words: &[Vec<u8>],
) -> Result<(Vec<u8>, Vec<u8>, Ended), Difference> {
    let Called {
        out,
        errors,
        status,
    } = called(generator, words)?;
    let Some((expected, refusal, ended)) = guarded(|| refer(words)) else {
        return Err(shown_by(words, "the reference panicked".to_owned()));
    };
    for (name, proved, reference) in [
        ("standard error", &errors, &refusal),
        ("standard output", &out, &expected),
    ] {
        if let Some((line, apart)) = first_line(proved, "reference", reference) {
            let what = format!("{name} differs: line {} ({status})\n{apart}", line + 1);
            return Err(shown_by(words, what));
        }
    }
    if ended == Ended::Loaded && !status.success() {
        return Err(shown_by(words, format!("a load ended with {status}")));
    }
    Ok((out, errors, ended))
}

/// What the reference writes.
fn refer(words: &[Vec<u8>]) -> (Vec<u8>, Vec<u8>, Ended) {
    let words: Vec<&[u8]> = words.iter().map(Vec::as_slice).collect();
    let (mut out, mut errors) = (Vec::new(), Vec::new());
    // Lists take any bytes, so nothing fails.
    let ended = run_generator(&words, &mut out, &mut errors).unwrap_or(Ended::Misused);
    (out, errors, ended)
}

/// Calls the program, which may not hang nor be ended by a signal.
fn called(generator: &Path, words: &[Vec<u8>]) -> Result<Called, Difference> {
    pending::leave("last.words", &quoted(words));
    let called = program::call(generator, words);
    let called = called.map_err(|error| shown_by(words, error.to_string()))?;
    if called.status.code().is_none() {
        return Err(shown_by(words, called.status.to_string()));
    }
    Ok(called)
}

/// The difference that a call shows.
fn shown_by(words: &[Vec<u8>], what: String) -> Difference {
    Difference {
        what: format!("a call for a load: {what}"),
        name: "difference.words".to_owned(),
        contents: quoted(words),
    }
}

/// The words as one writes them in a shell.
fn quoted(words: &[Vec<u8>]) -> Vec<u8> {
    let mut line = b"target/bin/generate".to_vec();
    for word in words {
        line.extend_from_slice(b" '");
        line.extend_from_slice(word);
        line.push(b'\'');
    }
    line.push(b'\n');
    line
}

/// Compares the report of one load, if there is one. A report is of the run that
/// was opened last, so each load is handed over by itself.
fn reported(reporter: Reader, load: &[u8], counts: &mut Counts) -> Result<(), Difference> {
    if !load.is_empty() {
        let printed = readers::compare_report(reporter, load, PIECE)?;
        counts.traffic.printed(report::read(&printed).as_ref(), 1);
    }
    Ok(())
}

/// Whether both simulators accept every line of some loads: "each is accepted
/// when read in turn with lent buffers as long".
fn accepted(simulator: Reader, loads: &[u8]) -> Result<(), Difference> {
    let printed = readers::compare_one(simulator, loads, PIECE)?;
    let mut lines = loads.split_inclusive(|&byte| byte == b'\n');
    let answers = printed.split_inclusive(|&byte| byte == b'\n');
    let mut behind = 0;
    for answer in answers.take(lines.clone().count()) {
        if !answer.starts_with(b"(done ") {
            let answer = String::from_utf8_lossy(answer).into_owned();
            let what = format!("a line of a load is not accepted: {answer}");
            return Err(readers::shown_by(&up_to_refusal(loads, behind), what));
        }
        behind += lines.next().map_or(0, <[u8]>::len);
    }
    Ok(())
}

/// The load with the line that begins there, from its opening to that line.
fn up_to_refusal(loads: &[u8], start: usize) -> Vec<u8> {
    let length = loads[start..]
        .iter()
        .position(|&byte| byte == b'\n')
        .map_or(loads.len() - start, |end| end + 1);
    let openings = loads[..start + 1].windows(6);
    let opening = openings.enumerate().rfind(|(_, bytes)| bytes == b"(open ");
    loads[opening.map_or(0, |(place, _)| place)..start + length].to_vec()
}

#[cfg(test)]
mod tests {
    use super::*;

    pub fn words(list: &[&str]) -> Words {
        list.iter().map(|word| word.as_bytes().to_vec()).collect()
    }

    pub const GOOD: [&str; 4] = ["(open 4 2 4 6 0 (0 0 0 0))", "2", "1", "1"];

    #[test]
    fn another_program_is_found_out() {
        let mut counts = Counts::default();
        let told = load(Path::new("echo"), &words(&GOOD), &mut counts).expect_err("it echoes");
        let apart = "reference: (open 4 2 4 6 3 0 (0 0 0 0)), apart from word 6";
        assert!(told.what.contains(apart), "{}", told.what);
        let line = b"target/bin/generate '(open 4 2 4 6 0 (0 0 0 0))' '2' '1' '1'\n";
        assert_eq!(told.contents, line);
        let refused = words(&["(open 3 2 4 6 0 (0 0 0))", "2", "1", "1"]);
        let told = load(Path::new("true"), &refused, &mut counts).expect_err("it is silent");
        let apart = "standard error differs: line 1 (exit status: 0)\nproved: nothing\nreference: (refused 2)";
        assert!(told.what.contains(apart), "{}", told.what);
    }

    #[test]
    fn refused_lines_are_shown_from_their_opening_on() {
        let opening = "(open 4 2 4 6 0 (0 0 0 0))\n";
        let loads = format!("{opening}(tick 1)\n{opening}(settle)\n(tick 1)\n(settle)\n(tick 1)\n");
        let start = loads.len() - "(settle)\n(tick 1)\n".len();
        let shown = up_to_refusal(loads.as_bytes(), start);
        let expected = format!("{opening}(settle)\n(tick 1)\n(settle)\n");
        assert_eq!(String::from_utf8_lossy(&shown), expected);
    }

    #[test]
    fn calls_meet_all_that_is_said_of_loads() {
        let (mut draws, mut counts) = (Draws::new(51), Counts::default());
        for number in 0..1_500 {
            let sort = [words::short, words::ending][usize::from(number % 5 == 0)];
            let words = sort(&mut draws);
            let (out, errors, ended) = refer(&words);
            match ended {
                Ended::Loaded => assert!(retold(&words, &mut counts) == out),
                Ended::Refused => counts.loads.unbegun[check_of(&errors) as usize] += 1,
                Ended::Misused => panic!("{words:?}"),
            }
            let wrong = words::wrong(&mut draws);
            assert_eq!(refer(&wrong).2, Ended::Misused, "{wrong:?}");
            counts.loads.misused += 1;
        }
        assert_eq!(counts.loads.program_lacks(5), None, "{}", counts.loads);
    }

    #[test]
    fn long_loads_are_of_several_pieces() {
        let mut draws = Draws::new(52);
        let lengths = (0..20).map(|_| refer(&words::long(&mut draws)).0.len());
        assert!(lengths.filter(|&length| length > 2 << 16).count() > 8);
    }
}
