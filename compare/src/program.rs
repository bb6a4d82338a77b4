//! The proved programs: one run on an input, one called with words.

use std::ffi::OsStr;
use std::io::{self, Read, Write};
use std::os::unix::ffi::OsStrExt;
use std::path::{Path, PathBuf};
use std::process::{Command, ExitStatus, Stdio};
use std::sync::mpsc::{self, RecvTimeoutError};
use std::thread;
use std::time::Duration;

/// How long a program may print nothing before it counts as hanging. For what
/// it is given here it needs milliseconds.
const PATIENCE: Duration = Duration::from_secs(60);

/// The top of the repository.
pub fn root() -> &'static Path {
    const PACKAGE: &str = env!("CARGO_MANIFEST_DIR");
    Path::new(PACKAGE).parent().unwrap_or(Path::new(PACKAGE))
}

/// Where differences are saved.
pub fn directory() -> PathBuf {
    root().join("target/compare")
}

/// Where the proved program of a name is.
fn proved(name: &str) -> PathBuf {
    root().join("target/bin").join(name)
}

/// The proved program that runs schedules.
pub fn simulator() -> PathBuf {
    proved("simulate")
}

/// The proved program that makes loads.
pub fn generator() -> PathBuf {
    proved("generate")
}

/// The proved program that reports the traffic of a schedule.
pub fn reporter() -> PathBuf {
    proved("traffic")
}

/// What a program made of an input.
#[derive(Clone, PartialEq, Eq, Debug)]
pub struct Printout {
    /// What it printed.
    pub bytes: Vec<u8>,
    /// How it ended, if not as it should.
    pub failure: Option<String>,
}

/// Runs a program on an input that is handed over in pieces of so many bytes,
/// since it makes no difference in which pieces an input comes. One that hangs
/// is ended, and that is an error.
pub fn run(program: &Path, input: &[u8], piece: usize) -> io::Result<Printout> {
    run_within(PATIENCE, program, input, piece)
}

/// The same with so much patience.
fn run_within(
    patience: Duration,
    program: &Path,
    input: &[u8],
    piece: usize,
) -> io::Result<Printout> {
    let failed = |kind, what| io::Error::new(kind, format!("{}: {what}", program.display()));
    let mut child = Command::new(program)
        .stdin(Stdio::piped())
        .stdout(Stdio::piped())
        .stderr(Stdio::inherit())
        .spawn()
        .map_err(|error| failed(error.kind(), error.to_string()))?;
    let (stdin, stdout) = (child.stdin.take(), child.stdout.take());
    thread::scope(|scope| {
        // A program that ends early leaves the rest of its input unread; its
        // printout shows that.
        scope.spawn(move || {
            let Some(mut stdin) = stdin else { return };
            let fed = input
                .chunks(piece.max(1))
                .try_for_each(|piece| stdin.write_all(piece));
            drop(fed);
        });
        let (bytes, hangs) = stdout.map_or_else(Default::default, |out| heard(out, patience));
        if hangs {
            child.kill()?;
        }
        let status = child.wait()?;
        if hangs {
            let what = format!("no answer for {patience:?} after {} bytes", bytes.len());
            return Err(failed(io::ErrorKind::TimedOut, what));
        }
        let failure = (!status.success()).then(|| status.to_string());
        Ok(Printout { bytes, failure })
    })
}

/// What came of calling a program with words.
#[derive(Clone, PartialEq, Eq, Debug)]
pub struct Called {
    /// What it wrote to standard output.
    pub out: Vec<u8>,
    /// What it wrote to standard error.
    pub errors: Vec<u8>,
    /// How it ended.
    pub status: ExitStatus,
}

/// Bytes as the words of a call.
pub fn as_words(words: &[Vec<u8>]) -> impl Iterator<Item = &OsStr> {
    words.iter().map(|word| OsStr::from_bytes(word))
}

/// Calls a program with words, none of which has a zero byte. One that hangs
/// is ended, and that is an error.
pub fn call(program: &Path, words: &[Vec<u8>]) -> io::Result<Called> {
    let failed = |kind, what| io::Error::new(kind, format!("{}: {what}", program.display()));
    let mut child = Command::new(program)
        .args(as_words(words))
        .stdin(Stdio::null())
        .stdout(Stdio::piped())
        .stderr(Stdio::piped())
        .spawn()
        .map_err(|error| failed(error.kind(), error.to_string()))?;
    let (stdout, stderr) = (child.stdout.take(), child.stderr.take());
    let errors = thread::spawn(|| stderr.map_or_else(Default::default, |err| heard(err, PATIENCE)));
    let (out, hangs) = stdout.map_or_else(Default::default, |out| heard(out, PATIENCE));
    if hangs {
        child.kill()?;
    }
    let status = child.wait()?;
    let (errors, _) = errors.join().unwrap_or_default();
    if hangs {
        let what = format!("nothing for {PATIENCE:?} after {} bytes", out.len());
        return Err(failed(io::ErrorKind::TimedOut, what));
    }
    Ok(Called {
        out,
        errors,
        status,
    })
}

/// What is heard until the end, or until nothing comes for too long; and
/// whether it was that.
fn heard(mut from: impl Read + Send + 'static, patience: Duration) -> (Vec<u8>, bool) {
    let (sender, pieces) = mpsc::channel();
    thread::spawn(move || {
        let mut piece = vec![0; 1 << 16];
        while let Ok(length @ 1..) = from.read(&mut piece) {
            if sender.send(piece[..length].to_vec()).is_err() {
                break;
            }
        }
    });
    let mut bytes = Vec::new();
    loop {
        match pieces.recv_timeout(patience) {
            Ok(piece) => bytes.extend(piece),
            Err(error) => return (bytes, error == RecvTimeoutError::Timeout),
        }
    }
}

#[cfg(test)]
mod tests {
    use super::{call, run, run_within};
    use std::path::Path;
    use std::time::Duration;

    #[test]
    fn a_program_gets_its_whole_input() {
        let input = b"some bytes\n".repeat(20_000);
        for piece in [7_777, 1_000_000] {
            let printout = run(Path::new("cat"), &input, piece).expect("it runs");
            assert!(printout.bytes == input && printout.failure.is_none());
        }
    }

    #[test]
    fn a_failing_program_is_told() {
        let printout = run(Path::new("false"), b"x", 1).expect("it runs");
        assert!(printout.failure.is_some());
        assert!(run(Path::new("no/such/program"), b"", 1).is_err());
    }

    #[test]
    fn a_called_program_gets_its_words() {
        let script = b"printf '%s|' \"$@\"; printf 'no' >&2; exit 3".to_vec();
        let words = [&b"-c"[..], &script, b"sh", b"(a b)", b"", b"\xFF"].map(<[u8]>::to_vec);
        let called = call(Path::new("sh"), &words).expect("it runs");
        assert_eq!(called.out, b"(a b)||\xFF|");
        assert_eq!(
            (called.errors, called.status.code()),
            (b"no".to_vec(), Some(3))
        );
        assert!(call(Path::new("no/such/program"), &[]).is_err());
    }

    #[test]
    fn a_hanging_program_is_ended() {
        let patience = Duration::from_millis(300);
        let input = b"echo heard; exec sleep 600\n";
        let ended = run_within(patience, Path::new("sh"), input, 100);
        let told = ended.expect_err("it hangs").to_string();
        assert_eq!(told, "sh: no answer for 300ms after 6 bytes");
    }
}
