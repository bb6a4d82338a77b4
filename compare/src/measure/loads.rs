//! Whole loads: both programs that make them, what they write thrown away.

use super::programs::{reference, timed_run};
use super::{try_in_turn, Row};
use crate::program::{self, Called};
use crate::text;
use reference::{Plan, Setup};
use std::io::{Error, Result};
use std::path::Path;
use std::process::Command;

/// The steps of a load.
const STEPS: u64 = 1_000_000;
/// How many processors there are, how many of them faulty, and the slot: as
/// many deliveries as a load of so many steps can have. Its views are used up
/// by deliveries, but for those under a faulty leader, for which the clocks
/// are waited.
const CROWDS: [(u64, u64, u64); 3] = [(4, 1, 4_500), (16, 2, 9_000), (64, 7, 9_000)];

/// One row per number of processors.
pub fn rows() -> Result<Vec<Row>> {
    let reference = reference("reference_generate")?;
    CROWDS
        .into_iter()
        .map(|(n, faulty, gamma)| {
            let words = words(n, faulty, gamma);
            row(n, &words, &program::generator(), &reference)
        })
        .collect()
}

/// The words of a call for a load that settles at once.
fn words(n: u64, faulty: u64, gamma: u64) -> Vec<Vec<u8>> {
    let plan = Plan {
        n,
        delta: 4,
        gamma,
        views: 900,
        k: Plan::VIEWS_PER_LEADER,
    };
    // Spread evenly over the leaders.
    let faulty = (0..faulty).map(|place| 1 << ((2 * place + 1) * n / (2 * faulty)));
    let setup = Setup {
        plan,
        faulty: faulty.sum(),
        clocks: [0; 64],
    };
    let numbers = [STEPS, 0, n].map(|number| number.to_string().into_bytes());
    [vec![text::opening(&setup, n as usize)], numbers.to_vec()].concat()
}

/// A load of n processors by both programs.
fn row(n: u64, words: &[Vec<u8>], proved: &Path, reference: &Path) -> Result<Row> {
    let load = load(proved, words)?;
    // Two programs that do not do the same cannot be set side by side.
    if load != self::load(reference, words)? {
        return Err(Error::other("the programs make different loads"));
    }
    let calling = |path: &Path| {
        let mut command = Command::new(path);
        command.args(program::as_words(words));
        command
    };
    let times = try_in_turn(
        || timed_run(&mut calling(proved)),
        || timed_run(&mut calling(reference)),
    )?;
    let what = format!("program, load of n = {n}: {}", told(&load));
    Ok(Row::new(what, times.ratio()))
}

/// What a program writes.
fn load(path: &Path, words: &[Vec<u8>]) -> Result<Vec<u8>> {
    let Called { out, status, .. } = program::call(path, words)?;
    if status.success() {
        Ok(out)
    } else {
        Err(Error::other("a program failed"))
    }
}

/// What a load is made of.
fn told(load: &[u8]) -> String {
    let lines = || load.split_inclusive(|&byte| byte == b'\n');
    let starting = |word: &[u8]| lines().filter(|line| line.starts_with(word)).count();
    let (deliveries, ticks) = (starting(b"(deliver"), starting(b"(tick"));
    format!(
        "{} steps, {deliveries} deliver, {ticks} tick",
        deliveries + ticks
    )
}

#[cfg(test)]
mod tests {
    use super::*;
    use reference::{run_generator, Ended};

    #[test]
    fn every_load_does_all_of_its_steps() {
        for (n, faulty, gamma) in CROWDS {
            let words = words(n, faulty, gamma);
            let words: Vec<&[u8]> = words.iter().map(Vec::as_slice).collect();
            let mut out = Vec::new();
            let ended = run_generator(&words, &mut out, &mut Vec::new());
            assert!(matches!(ended, Ok(Ended::Loaded)));
            let told = told(&out);
            assert!(told.starts_with("1000000 steps"), "{told}");
        }
    }
}
