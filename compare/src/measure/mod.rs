//! What the proved code costs beside the reference: both sides are measured in
//! turn on the same input, and a ratio is the median of the turns' ratios.
//! Times themselves say something about a machine and are not kept.

pub mod calls;
pub mod lines;
pub mod loads;
mod plain;
pub mod programs;
pub mod search;
pub mod ticks;
pub mod traffic;

use std::convert::Infallible;
use std::fmt::{self, Display, Formatter};
use std::hint::black_box;
use std::time::{Duration, Instant};

/// How often each side is measured, at least; the median counts.
const LEAST: usize = 9;
/// How often each side is measured, at most.
const MOST: usize = 199;
/// Between the two, until both sides together have needed this much: what is
/// short is measured more often, since a busy machine disturbs it more.
const ENOUGH: Duration = Duration::from_millis(600);
/// The levels of the stack on which it is done: some thousand bytes of it.
const LEVELS: usize = 64;

/// What the turns of both sides came to.
#[derive(Clone, Copy, Debug)]
pub struct Times {
    /// The median of the proved code's times.
    proved: f64,
    /// The median of the reference's times.
    reference: f64,
    /// The median of the turns' ratios: both sides of one turn met the same
    /// machine, busy or not.
    ratio: f64,
}

impl Times {
    /// The speed of the proved code over the speed of the reference.
    pub const fn ratio(self) -> f64 {
        self.ratio
    }

    /// What the proved code needs, over what it needs for something else.
    pub fn proved_over(self, other: Self) -> f64 {
        self.proved / other.proved
    }

    /// What the reference needs, over what it needs for something else.
    pub fn reference_over(self, other: Self) -> f64 {
        self.reference / other.reference
    }
}

/// Measures both sides in turn, after one turn that does not count. Each
/// answers the time that it says was needed, preparations apart.
pub fn in_turn(
    mut proved: impl FnMut() -> Duration,
    mut reference: impl FnMut() -> Duration,
) -> Times {
    let Ok(times) = try_in_turn::<Infallible>(|| Ok(proved()), || Ok(reference()));
    times
}

/// The same of what may fail.
pub fn try_in_turn<E>(
    mut proved: impl FnMut() -> Result<Duration, E>,
    mut reference: impl FnMut() -> Result<Duration, E>,
) -> Result<Times, E> {
    let (mut ours, mut theirs) = (Vec::new(), Vec::new());
    proved()?;
    reference()?;
    let mut needed = Duration::ZERO;
    while ours.len() < LEAST || (ours.len() < MOST && needed < ENOUGH) {
        let level = ours.len() * 7 % LEVELS;
        let (one, other) = (deeper(level, &mut proved)?, deeper(level, &mut reference)?);
        needed += one + other;
        ours.push(one.as_secs_f64());
        theirs.push(other.as_secs_f64());
    }
    let turns = ours.iter().zip(&theirs);
    let ratios = turns.map(|(one, other)| other / one.max(f64::MIN_POSITIVE));
    let ratio = median(ratios.collect());
    Ok(Times {
        proved: median(ours),
        reference: median(theirs),
        ratio,
    })
}

/// Does something some levels down the stack. How the words that a function
/// keeps there lie to those that it is lent can double its time; that is
/// chance, and over many levels it evens out.
#[inline(never)]
fn deeper<T>(levels: usize, something: &mut dyn FnMut() -> T) -> T {
    let frame = black_box([0_u8; 40]);
    let done = match levels {
        0 => something(),
        _ => deeper(levels - 1, something),
    };
    black_box(frame);
    done
}

/// The time that something needs.
pub fn timed(something: impl FnOnce()) -> Duration {
    let start = Instant::now();
    something();
    start.elapsed()
}

/// The middle one, and never 0, since it is divided by.
fn median(mut times: Vec<f64>) -> f64 {
    times.sort_by(f64::total_cmp);
    times
        .get(times.len() / 2)
        .map_or(f64::MIN_POSITIVE, |time| time.max(f64::MIN_POSITIVE))
}

/// A row of a table.
#[derive(Clone, Debug)]
pub struct Row {
    what: String,
    value: f64,
}

impl Row {
    /// A row for what was measured.
    pub fn new(what: impl Into<String>, value: f64) -> Self {
        Self {
            what: what.into(),
            value,
        }
    }
}

impl Display for Row {
    fn fmt(&self, out: &mut Formatter) -> fmt::Result {
        let digits = if self.value < 100.0 { 2 } else { 0 };
        write!(out, "{:>9.digits$}  {}", self.value, self.what)
    }
}

#[cfg(test)]
mod tests {
    use super::*;

    #[test]
    fn a_ratio_is_the_median_of_the_turns_ratios() {
        assert!((median(vec![9.0, 1.0, 2.0]) - 2.0).abs() < 1e-9);
        assert!(median(vec![]) > 0.0);
        let times = in_turn(|| Duration::from_secs(2), || Duration::from_secs(1));
        assert!((times.ratio() - 0.5).abs() < 1e-9);
        // The medians of the sides are 2 and 3, the turns' ratios 5, 1 and 1.
        let (mut ours, mut theirs) = ([1, 2, 3].iter().cycle(), [5, 2, 3].iter().cycle());
        let turn = |seconds: Option<&u64>| Duration::from_secs(seconds.map_or(1, |&all| all));
        let times = in_turn(|| turn(ours.next()), || turn(theirs.next()));
        assert!((times.ratio() - 1.0).abs() < 1e-9);
        assert_eq!(Row::new("a row", 0.5).to_string(), "     0.50  a row");
    }
}
