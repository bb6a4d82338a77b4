//! Calls of the program that makes loads with wrong words.

use super::{called, refer, shown_by};
use crate::difference::Difference;
use crate::program::Called;
use reference::Ended;
use std::path::Path;

/// Compares a call with wrong words: nothing on standard output, one line on
/// standard error, the same for all such calls. What it says is the program's
/// own.
pub fn misused(
    generator: &Path,
    words: &[Vec<u8>],
    usage: &mut Option<Vec<u8>>,
) -> Result<(), Difference> {
    let Called { out, errors, .. } = called(generator, words)?;
    let ended = refer(words).2;
    let one_line = errors.len() > 1
        && errors.iter().position(|&byte| byte == b'\n') == Some(errors.len() - 1)
        && !errors.starts_with(b"(refused ");
    let told = |bytes: &[u8]| String::from_utf8_lossy(bytes).into_owned();
    let what = if ended != Ended::Misused {
        format!("the reference takes wrong words: {ended:?}")
    } else if !out.is_empty() {
        format!(
            "wrong words are answered on standard output: {}",
            told(&out)
        )
    } else if !one_line {
        format!(
            "wrong words are not answered by one line: {}",
            told(&errors)
        )
    } else if *usage.get_or_insert_with(|| errors.clone()) != errors {
        format!("wrong words are answered otherwise: {}", told(&errors))
    } else {
        return Ok(());
    };
    Err(shown_by(words, what))
}

#[cfg(test)]
mod tests {
    use super::super::tests::{words, GOOD};
    use super::*;

    #[test]
    fn wrong_words_want_one_line() {
        let mut usage = None;
        let mut told = |program: &str, list: &[&str]| {
            let answered = misused(Path::new(program), &words(list), &mut usage);
            answered.map_err(|difference| difference.what)
        };
        let what = told("echo", &["x"]).expect_err("it echoes");
        assert!(what.contains("on standard output: x"), "{what}");
        let what = told("true", &["x"]).expect_err("it is silent");
        assert!(what.contains("not answered by one line"), "{what}");
        let what = told("true", &GOOD).expect_err("nothing is wrong");
        assert!(what.contains("the reference takes"), "{what}");
        assert_eq!(told("sh", &["-c", "echo usage >&2"]), Ok(()));
        let what = told("sh", &["-c", "echo other >&2"]).expect_err("it differs");
        assert!(what.contains("otherwise: other"), "{what}");
    }
}
