//! What was met of views per leader: openings with each number of them, by each
//! form of line, what refuses one for its sake, and lists that came under
//! demand 3's second sentence.

#[cfg(test)]
mod tests;

use crate::counts::by_number;
use crate::text::{numbers_before_clocks, Heading};
use reference::{Plan, Setup};
use std::fmt::{self, Display, Formatter};

/// Why an opening is refused for its views per leader.
#[derive(Clone, Copy, PartialEq, Eq, Debug)]
pub enum Refusal {
    /// Check 3: two of them and a slot of two delays, but not of four.
    Slot = 0,
    /// Check 3: a slot just one tick below four delays.
    SlotEdge = 1,
    /// Check 4: none.
    None = 2,
    /// Check 4: one.
    One = 3,
    /// Check 4: nine, of a limit that is a multiple.
    Nine = 4,
    /// Check 4: more than nine.
    More = 5,
    /// Check 4: a limit that is a multiple of three, but not of them.
    Limit = 6,
    /// Check 7: a clock of two slots, but not of three.
    Start = 7,
}

/// What each of them is called.
const REFUSALS: [&str; 8] = [
    "a slot too short for two",
    "a slot one tick too short for two",
    "none",
    "one",
    "nine",
    "more",
    "a limit that is no multiple",
    "a start clock too high for two",
];

/// What a line is that was taken or refused for the numbers before its clocks.
const LINES: [&str; 4] = [
    "refused with four numbers",
    "taken without k",
    "taken with k",
    "refused with seven numbers",
];

/// Counts by the views per leader, of which 2 to 8 are looked at.
type ByTurn = [u64; 9];

/// Counts of what follows the views per leader.
#[derive(Clone, Default, Debug)]
pub struct Turns {
    /// Openings accepted.
    pub opened: ByTurn,
    /// Those of them with a correct start clock of three slots or more.
    pub late: u64,
    /// Openings refused, by [`Refusal`].
    pub refused: [u64; 8],
    /// Lines of openings, by [`LINES`].
    pub lines: [u64; 4],
    /// Lines without k that were written again, with it.
    pub rewritten: u64,
    /// Lists that came under demand 3's second sentence.
    pub due: ByTurn,
    /// Those of them with two views per leader and a slot of just four delays.
    pub due_at_edge: u64,
    /// Runs handed in that are unsound for the views per leader alone.
    pub unsound: u64,
    /// Steps of one processor accepted.
    pub stepped: ByTurn,
    /// Those refused with views per leader below 2 or above 8.
    pub unstepped: u64,
}

impl Turns {
    /// Takes in an opening and the check that refused it, 0 for none.
    pub fn opening(&mut self, setup: &Setup, check: u64) {
        let plan = setup.plan;
        if check == 0 {
            count(&mut self.opened, plan.k);
            self.late += u64::from(highest(setup) >= 3 * plan.gamma);
        }
        for refusal in refusals(setup, check) {
            self.refused[refusal as usize] += 1;
        }
    }

    /// Takes in a line, and whether it was taken as an opening.
    pub fn line(&mut self, line: &[u8], taken: bool) {
        let Some(numbers) = numbers_before_clocks(line) else {
            return;
        };
        let of_a_form = numbers == Heading::Five as usize || numbers == Heading::Six as usize;
        let place = numbers.wrapping_sub(Heading::Four as usize);
        if let (Some(times), true) = (self.lines.get_mut(place), taken == of_a_form) {
            *times += 1;
        }
    }

    /// Takes in a list that has come under demand 3's second sentence.
    pub fn due(&mut self, plan: Plan) {
        count(&mut self.due, plan.k);
        self.due_at_edge += u64::from(plan.k == 2 && plan.gamma == 4 * plan.delta);
    }

    /// Takes in a step of one processor, and the check that refused it.
    pub fn step(&mut self, plan: Plan, check: u64) {
        match check {
            0 => count(&mut self.stepped, plan.k),
            9 => self.unstepped += u64::from(!(2..=8).contains(&plan.k)),
            _ => {}
        }
    }

    /// Adds the counts of another part.
    pub fn add(&mut self, other: &Self) {
        add(&mut self.opened, &other.opened);
        add(&mut self.refused, &other.refused);
        add(&mut self.lines, &other.lines);
        add(&mut self.due, &other.due);
        add(&mut self.stepped, &other.stepped);
        self.late += other.late;
        self.rewritten += other.rewritten;
        self.due_at_edge += other.due_at_edge;
        self.unsound += other.unsound;
        self.unstepped += other.unstepped;
    }

    /// What the programs that read schedules met less often: openings with each
    /// number of views per leader and lists of them that were due, each
    /// refusal, each form of line.
    pub fn program_lacks(&self, least: u64) -> Option<String> {
        self.openings_lack(least)
            .or_else(|| self.lines_lack(least))
            .or_else(|| self.lists_lack(least))
    }

    /// What the program that makes loads met less often.
    pub fn loads_lack(&self, least: u64) -> Option<String> {
        self.lines_lack(least)
            .or_else(|| by_turn_lacks("openings", &self.opened, least))
    }

    /// What the library met less often: as the programs, and what is handed in
    /// to it alone.
    pub fn library_lacks(&self, least: u64) -> Option<String> {
        for (times, what) in [
            (self.rewritten, "lines without k written again"),
            (self.unsound, "runs unsound for them"),
            (self.unstepped, "steps refused with others than 2 to 8"),
        ] {
            if times < least {
                return Some(format!("{times} {what}"));
            }
        }
        by_turn_lacks("steps", &self.stepped, least).or_else(|| self.program_lacks(least))
    }

    fn openings_lack(&self, least: u64) -> Option<String> {
        if self.late < least {
            return Some(format!("{} start clocks of three slots", self.late));
        }
        by_turn_lacks("openings", &self.opened, least).or_else(|| self.refusals_lack(least))
    }

    /// What was met less often of openings refused for the views per leader.
    pub fn refusals_lack(&self, least: u64) -> Option<String> {
        named_lacks("openings refused, ", &REFUSALS, &self.refused, least)
    }

    fn lines_lack(&self, least: u64) -> Option<String> {
        named_lacks("lines ", &LINES, &self.lines, least)
    }

    fn lists_lack(&self, least: u64) -> Option<String> {
        if self.due_at_edge < least {
            return Some(format!("{} due with just four delays", self.due_at_edge));
        }
        by_turn_lacks("lists due", &self.due, least)
    }
}

/// The highest correct start clock.
fn highest(setup: &Setup) -> u64 {
    let correct = (0..64_u64).filter(|&p| p < setup.plan.n && setup.faulty >> p & 1 == 0);
    let clocks = correct.map(|number| setup.clocks[number as usize]);
    clocks.max().unwrap_or(0)
}

/// What of the views per leader alone made a check refuse.
fn refusals(setup: &Setup, check: u64) -> Vec<Refusal> {
    let Plan {
        delta,
        gamma,
        views,
        k,
        ..
    } = setup.plan;
    let limited = (3..=6_000).contains(&views);
    match (check, k) {
        (3, 2) if (1..=1_000).contains(&delta) && (2 * delta..4 * delta).contains(&gamma) => {
            let mut found = vec![Refusal::Slot];
            found.extend((gamma == 4 * delta - 1).then_some(Refusal::SlotEdge));
            found
        }
        (4, 0) if limited => vec![Refusal::None],
        (4, 1) if limited => vec![Refusal::One],
        (4, 9) if limited && views % 9 == 0 => vec![Refusal::Nine],
        (4, 10..) if limited => vec![Refusal::More],
        (4, 2..=8) if limited && views % 3 == 0 => vec![Refusal::Limit],
        (7, 2) if highest(setup) < 3 * gamma => vec![Refusal::Start],
        _ => Vec::new(),
    }
}

/// Counts one with so many views per leader, if they are looked at.
fn count(times: &mut ByTurn, k: u64) {
    let place = usize::try_from(k).ok();
    if let Some(times) = place.and_then(|place| times.get_mut(place)) {
        *times += 1;
    }
}

fn add(times: &mut [u64], more: &[u64]) {
    for (times, more) in times.iter_mut().zip(more) {
        *times += more;
    }
}

/// The first number of views per leader that was met less often.
fn by_turn_lacks(what: &str, times: &ByTurn, least: u64) -> Option<String> {
    let few = (2..=8).find(|&k| times[k] < least)?;
    Some(format!("{} {what} with {few}", times[few]))
}

/// The first of some with names that was met less often.
fn named_lacks(what: &str, names: &[&str], times: &[u64], least: u64) -> Option<String> {
    let mut named = names.iter().zip(times);
    let (name, times) = named.find(|&(_, &times)| times < least)?;
    Some(format!("{times} {what}{name}"))
}

impl Display for Turns {
    fn fmt(&self, out: &mut Formatter) -> fmt::Result {
        for (what, times) in [
            ("openings", &self.opened),
            ("lists due", &self.due),
            ("steps", &self.stepped),
        ] {
            if times.iter().any(|&times| times > 0) {
                writeln!(out, "  views per leader: {what}: {}", by_number(times))?;
            }
        }
        let refused = REFUSALS.iter().zip(self.refused);
        let lines = LINES.iter().zip(self.lines);
        let others = [
            ("start clocks of three slots", self.late),
            ("lines written again", self.rewritten),
            ("due with just four delays", self.due_at_edge),
            ("runs unsound for them", self.unsound),
            ("steps refused for them", self.unstepped),
        ];
        let mut told: Vec<String> = Vec::new();
        for (what, times) in refused.map(|(name, times)| (format!("refused, {name}"), times)) {
            told.extend((times > 0).then(|| format!("{what}: {times}")));
        }
        for (what, times) in lines.map(|(&name, times)| (name, times)).chain(others) {
            told.extend((times > 0).then(|| format!("{what}: {times}")));
        }
        if !told.is_empty() {
            writeln!(out, "  views per leader: {}", told.join(", "))?;
        }
        Ok(())
    }
}
