//! What the comparison's command line asks for.

use std::path::PathBuf;

/// How to call it.
pub const USAGE: &str = "compare [--rounds N] [--seed S], or compare --replay FILE";

/// The rounds of the gate's comparison.
const ROUNDS: u64 = 40;
/// The seed of the gate's comparison.
const SEED: u64 = 1;

/// What is asked for.
#[derive(Clone, PartialEq, Eq, Debug)]
pub enum Options {
    /// The gate's comparison, or a longer one.
    Compare {
        /// How many rounds of every part.
        rounds: u64,
        /// The seed of what is drawn.
        seed: u64,
        /// Whether it is the gate's, which has to meet enough.
        gate: bool,
    },
    /// One schedule.
    Replay(PathBuf),
}

/// Takes a command line's words apart; none if they ask for nothing known.
pub fn parse(words: &[String]) -> Option<Options> {
    let words: Vec<&str> = words.iter().map(String::as_str).collect();
    let number = |word: &str| word.parse::<u64>().ok();
    let (rounds, seed, gate) = match words[..] {
        [] => (ROUNDS, SEED, true),
        ["--replay", file] => return Some(Options::Replay(file.into())),
        ["--seed", seed] => (ROUNDS, number(seed)?, false),
        ["--rounds", rounds] => (number(rounds)?, SEED, false),
        ["--rounds", rounds, "--seed", seed] | ["--seed", seed, "--rounds", rounds] => {
            (number(rounds)?, number(seed)?, false)
        }
        _ => return None,
    };
    (rounds > 0).then_some(Options::Compare { rounds, seed, gate })
}

#[cfg(test)]
mod tests {
    use super::*;

    fn parsed(line: &str) -> Option<Options> {
        let words: Vec<String> = line.split_whitespace().map(str::to_owned).collect();
        parse(&words)
    }

    #[test]
    fn command_lines() {
        let asked = |rounds, seed, gate| Some(Options::Compare { rounds, seed, gate });
        assert_eq!(parsed(""), asked(ROUNDS, SEED, true));
        assert_eq!(parsed("--rounds 7"), asked(7, SEED, false));
        assert_eq!(parsed("--seed 5 --rounds 7"), asked(7, 5, false));
        assert_eq!(parsed("--replay a"), Some(Options::Replay("a".into())));
        for line in ["--rounds", "--rounds x", "--rounds 0", "7", "--replay"] {
            assert_eq!(parsed(line), None);
        }
    }
}
