//! Check 9 told again clause by clause, of any words and of either form of
//! network: what a run handed in may break.

use crate::stored::{Fields, Width};
use crate::words::{run_of, SETTLED};
use reference::{Plan, Run};

/// A clause of check 9, or the library's own about the settled word.
#[derive(Clone, Copy, PartialEq, Eq, Debug)]
pub enum Clause {
    /// A limit of 2 to 5, whatever the views per leader are.
    Plan = 0,
    /// The tally's words, of which 6 speaks.
    Tally = 1,
    /// Too few words of a network.
    Short = 2,
    /// Too many of them.
    Long = 3,
    /// A correct clock.
    Clock = 4,
    /// The time at or above its limit.
    Time = 5,
    /// The settling time.
    Settling = 6,
    /// A settled word above 1.
    SettledWord = 7,
    /// More messages than fit.
    Crowded = 8,
    /// A held message's kind.
    Kind = 9,
    /// Its view.
    View = 10,
    /// Its processor.
    Processor = 11,
    /// It is addressed to a faulty one.
    Addressee = 12,
    /// Its sending time.
    Sent = 13,
    /// A word beyond the last message, where a message might stand.
    Beyond = 14,
    /// A word at the end that no whole message can use.
    Odd = 15,
    /// A limit that follows the views per leader, or theirs.
    Turns = 16,
}

/// What each of them is called.
pub const CLAUSES: [&str; 17] = [
    "a limit of 2 to 5",
    "a tally too short",
    "a network too short",
    "a network too long",
    "a clock",
    "a time at its limit",
    "a settling time",
    "a settled word above 1",
    "more messages than fit",
    "a kind",
    "a view",
    "a processor",
    "a faulty addressee",
    "a sending time",
    "a word beyond the last message",
    "a word that no message can use",
    "the views per leader",
];

/// The clauses that a run's words break, with a tally of so many words. Of a
/// plan that is broken, clocks and messages are not asked; nor are messages
/// where there are more than fit.
pub fn broken(width: Width, words: &[u64], tally: usize, network: &[u64]) -> Vec<Clause> {
    let run = run_of(words);
    let Plan { n, views, .. } = run.plan;
    let length = network.len() as u128;
    let limit = u128::from(views) * u128::from(run.plan.gamma);
    let is_settled = words[SETTLED] > 0;
    let (limited, turned) = (plan_holds(&run), turns_hold(run.plan));
    let planned = limited && turned;
    let fits = u128::from(run.held) * width.words() as u128 <= length;
    let mut found = Vec::new();
    for (clause, breaks) in [
        (Clause::Plan, !limited),
        (Clause::Turns, !turned),
        (Clause::Tally, (tally as u128) < 4 * u128::from(views)),
        (
            Clause::Short,
            length < u128::from(width.least()) * u128::from(n),
        ),
        (Clause::Long, length > 524_288),
        (Clause::Clock, planned && !clocks_hold(&run)),
        (Clause::Time, u128::from(run.time) >= limit),
        (
            Clause::Settling,
            run.gst > run.time || !is_settled && run.gst > 0,
        ),
        (Clause::SettledWord, words[SETTLED] > 1),
        (Clause::Crowded, !fits),
    ] {
        if breaks {
            found.push(clause);
        }
    }
    if planned && fits {
        found.extend(messages(width, &run, network));
    }
    found
}

/// Checks 2 to 5, but for what follows the views per leader.
fn plan_holds(run: &Run) -> bool {
    let Plan {
        n,
        delta,
        gamma,
        views,
        ..
    } = run.plan;
    (4..=64).contains(&n)
        && (1..=1_000).contains(&delta)
        && (2 * delta..=10_000).contains(&gamma)
        && (3..=6_000).contains(&views)
        && (n == 64 || run.faulty >> n == 0)
        && u64::from(run.faulty.count_ones()) <= (n - 1) / 3
}

/// What of checks 3 and 4 follows the views per leader.
const fn turns_hold(plan: Plan) -> bool {
    let Plan {
        delta,
        gamma,
        views,
        k,
        ..
    } = plan;
    match k {
        2 => gamma as u128 >= 4 * delta as u128 && views % 2 == 0,
        3..=8 => views % k == 0,
        _ => false,
    }
}

/// Whether every correct clock is below the limit, not below its view's clock
/// time and below that of the next initial view.
fn clocks_hold(run: &Run) -> bool {
    let (gamma, k) = (u128::from(run.plan.gamma), u128::from(run.plan.k));
    let correct = (0..run.plan.n).filter(|number| run.faulty >> number & 1 == 0);
    correct.into_iter().all(|number| {
        let clock = u128::from(run.clocks[number as usize]);
        let view = u128::from(run.views[number as usize]);
        let next = (view / k + 1) * k;
        let limit = u128::from(run.plan.views) * gamma;
        clock < limit && clock >= view * gamma && clock < next * gamma
    })
}

/// What the network breaks; of clauses that several messages break, each once.
fn messages(width: Width, run: &Run, network: &[u64]) -> Vec<Clause> {
    let mut found = Vec::new();
    for message in width.messages(network, run.held) {
        for clause in message_breaks(run, message) {
            if !found.contains(&clause) {
                found.push(clause);
            }
        }
    }
    let used = run.held as usize * width.words();
    let whole = network.len() - network.len() % width.words();
    let any = |words: &[u64]| words.iter().any(|&word| word != 0);
    if any(&network[used..whole]) {
        found.push(Clause::Beyond);
    }
    if any(&network[whole..]) {
        found.push(Clause::Odd);
    }
    found
}

/// What one held message breaks. Who it is for is asked of one in range.
fn message_breaks(run: &Run, [kind, view, processor, sent]: Fields) -> Vec<Clause> {
    let mut found = Vec::new();
    for (clause, breaks) in [
        (Clause::Kind, !(1..=4).contains(&kind)),
        (Clause::View, view >= run.plan.views),
        (Clause::Processor, processor >= run.plan.n),
    ] {
        if breaks {
            found.push(clause);
        }
    }
    let leader = view / run.plan.k % run.plan.n;
    let to = if kind < 3 { leader } else { processor };
    if found.is_empty() && run.faulty >> to & 1 == 1 {
        found.push(Clause::Addressee);
    }
    if sent > run.time {
        found.push(Clause::Sent);
    }
    found
}

#[cfg(test)]
mod tests {
    use super::*;
    use crate::by_library::{spoil::spoil, states};
    use crate::draws::Draws;
    use reference::is_sound;

    #[test]
    fn names_stand_where_their_clauses_do() {
        assert_eq!(
            CLAUSES[Clause::Odd as usize],
            "a word that no message can use"
        );
        assert_eq!(
            CLAUSES[Clause::SettledWord as usize],
            "a settled word above 1"
        );
        assert_eq!(CLAUSES[Clause::Kind as usize], "a kind");
        assert_eq!(CLAUSES[Clause::Turns as usize], "the views per leader");
    }

    #[test]
    fn some_clause_is_broken_where_check_9_refuses() {
        let mut draws = Draws::new(41);
        let (mut sound, mut unsound) = (0, 0);
        for _ in 0..3_000 {
            let (mut state, run) = states::sound(&mut draws, 500, 20).expect("all words");
            spoil(&mut state, &run, &mut draws);
            let Some(run) = state.decoded() else { continue };
            let words = state.run.front();
            let (tally, network) = (state.tally.front(), state.network.front());
            let mut found = broken(Width::Two, words, tally.len(), network);
            found.retain(|&clause| clause != Clause::SettledWord);
            assert_eq!(
                found.is_empty(),
                is_sound(&run, tally, network),
                "{found:?}"
            );
            sound += u64::from(found.is_empty());
            unsound += u64::from(!found.is_empty());
        }
        assert!(sound > 500 && unsound > 500, "{sound} {unsound}");
    }
}
