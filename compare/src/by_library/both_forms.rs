//! The same events on the library with two words a message and on the reference
//! with four: "A schedule that both networks could hold is answered alike but
//! for those words." On the way the run is carried over in both directions, and
//! gone on with.

use super::carrying::{carried, carrying};
use super::{openings, sound, states};
use crate::adversary::Style;
use crate::calls::{Call, State};
use crate::counts::Counts;
use crate::difference::{first_word, Difference};
use crate::draws::Draws;
use crate::lent::Lent;
use crate::reference_calls;
use crate::stored::{Fields, Width};
use crate::words::HELD;
use reference::{Setup, Wide};

/// Events in one list, at most one of these.
const EVENTS: [u64; 4] = [30, 60, 60, 300];
/// The refusals in a row after which a list is given up.
const MOST_REFUSALS: u64 = 10;
/// How many in a thousand events are followed by carrying over.
const CARRIED: u64 = 120;

/// How many in a thousand lists begin with a run that no events have left.
const HANDED_IN: u64 = 200;

/// A run on both sides: the library's and the reference's.
struct Sides {
    two: State,
    four: State,
}

/// One list.
pub fn case(draws: &mut Draws, counts: &mut Counts) -> Result<(), Difference> {
    let mut sides = if draws.per_mille(HANDED_IN) {
        counts.carried.lists.handed_in += 1;
        handed_in(draws)
    } else {
        let (mut sides, setup) = lent(draws);
        let call = states::opening(&setup, draws);
        if !sides.opened(&call, counts)? {
            return Ok(());
        }
        sides
    };
    let style = Style::of(&sides.two, draws);
    let mut refusals = 0;
    for _ in 0..draws.one_of(&EVENTS) {
        if refusals > MOST_REFUSALS {
            break;
        }
        let event = sound::event(&sides.two, &style, draws);
        let call = states::applying(event, draws);
        let Some(check) = sides.applied(&call, counts)? else {
            return Ok(());
        };
        refusals = if check == 0 { 0 } else { refusals + 1 };
        if draws.per_mille(CARRIED) {
            let from = draws.one_of(&[Width::Two, Width::Four]);
            sides.carried(from, draws, counts)?;
        }
    }
    Ok(())
}

/// A setup and words lent for it on both sides: as many messages fit, or more
/// on one of them; at times too few words for either.
fn lent(draws: &mut Draws) -> (Sides, Setup) {
    let (state, setup) = if draws.per_mille(150) {
        openings::any(draws)
    } else {
        states::fresh(draws)
    };
    let n = setup.plan.n.min(64);
    let (few, some) = (draws.below(9), draws.below(12 * n + 1));
    let messages = 2 * n + draws.one_of(&[0, few, some, some]);
    let (more, less) = (draws.below(3 * n + 1), draws.below(messages + 1));
    let others = draws.one_of(&[messages, messages, messages + more, 2 * n + more, less]);
    let words = |width: Width, messages: u64, odd: usize| {
        messages as usize * width.words() + odd % width.words()
    };
    let (two, four) = if draws.per_mille(500) {
        (messages, others)
    } else {
        (others, messages)
    };
    let two = words(Width::Two, two, draws.place(3));
    let four = words(Width::Four, four, draws.place(5));
    let with = |length: usize, draws: &mut Draws| State {
        network: Lent::untouched(length, draws),
        ..state.clone()
    };
    let sides = Sides {
        two: with(two, draws),
        four: with(four, draws),
    };
    (sides, setup)
}

/// A sound run on both sides, with messages of no one's sending, equal ones
/// among them.
fn handed_in(draws: &mut Draws) -> Sides {
    let two = states::arbitrary(draws);
    let (n, held) = (two.run.front()[0], two.run.front()[HELD]);
    let some = draws.below(2 * n);
    let fit = held.max(2 * n) + draws.one_of(&[0, some, 8 * n]);
    let length = fit as usize * Width::Four.words() + draws.place(4);
    let messages = Width::Two.messages(two.network.front(), held);
    let words = Width::Four.network(messages, length);
    let four = State {
        network: Lent::new(&words, &[]),
        ..two.clone()
    };
    Sides { two, four }
}

impl Sides {
    /// Opens on both sides; answers whether both have opened. Only check 6 may
    /// tell them apart, for the network's sake.
    fn opened(&mut self, call: &Call, counts: &mut Counts) -> Result<bool, Difference> {
        let Call::Open(setup) = call else {
            return Ok(false);
        };
        let check = sound::opened(&mut self.two, call, counts)?;
        let State {
            run,
            tally,
            network,
            ..
        } = &mut self.four;
        let (run, tally) = (run.front_mut(), tally.front_mut());
        let other = reference_calls::open_in(Wide, setup, run, tally, network.front_mut());
        let lists = &mut counts.carried.lists;
        if check != other && (check == 6 || other == 6) {
            lists.apart += 1;
            return Ok(false);
        }
        if check != other {
            return Err(self.shows(call, &format!("answered {check}, with four words {other}")));
        }
        if check == 0 {
            lists.opened += 1;
            self.alike(call)?;
        } else {
            lists.refused += 1;
        }
        Ok(check == 0)
    }

    /// Applies an event on both sides; answers the check, and none once a
    /// network is full.
    fn applied(&mut self, call: &Call, counts: &mut Counts) -> Result<Option<u64>, Difference> {
        let &Call::Apply(numbers) = call else {
            return Ok(None);
        };
        let check = sound::applied(&mut self.two, call, counts)?;
        let State {
            run,
            tally,
            network,
            ..
        } = &mut self.four;
        let (run, tally) = (run.front_mut(), tally.front_mut());
        let other = reference_calls::apply_in(Wide, run, numbers, tally, network.front_mut());
        let lists = &mut counts.carried.lists;
        let full = match (check, other) {
            (18, 18) => Some(2),
            (18, _) => Some(0),
            (_, 18) => Some(1),
            _ => None,
        };
        if let Some(which) = full {
            lists.full[which] += 1;
            return Ok(None);
        }
        if check != other {
            return Err(self.shows(call, &format!("answered {check}, with four words {other}")));
        }
        lists.events += 1;
        self.alike(call)?;
        Ok(Some(check))
    }

    /// Carries the run over from the words that one side holds into as many as
    /// the other holds: they are the other's, which goes on with them.
    fn carried(
        &mut self,
        from: Width,
        draws: &mut Draws,
        counts: &mut Counts,
    ) -> Result<(), Difference> {
        let (source, goal) = match from {
            Width::Two => (&self.two, &mut self.four),
            Width::Four => (&self.four, &mut self.two),
        };
        let mut state = source.clone();
        state.target = Lent::untouched(goal.network.front().len(), draws);
        let check = carried(from, &mut state, draws, counts)?;
        let call = carrying(from);
        // A run that an event has left at its limit of time is unsound.
        if check == 9 {
            return Ok(());
        }
        if check != 0 || state.target.front() != goal.network.front() {
            let told = format!("answered {check}, or other words than those held there");
            return Err(self.shows(&call, &told));
        }
        goal.network
            .front_mut()
            .copy_from_slice(state.target.front());
        let to = usize::from(from == Width::Two);
        counts.carried.lists.carried[to] += 1;
        Ok(())
    }

    /// Whether run and tally are equal on both sides, and the networks hold the
    /// same messages and zeros behind them.
    fn alike(&self, call: &Call) -> Result<(), Difference> {
        let Self { two, four } = self;
        for (name, one, other) in [
            ("run", two.run.all(), four.run.all()),
            ("tally", two.tally.all(), four.tally.all()),
        ] {
            if let Some(place) = first_word(one, other) {
                return Err(self.shows(call, &format!("word {place} of the {name} differs")));
            }
        }
        let held = two.run.front()[HELD];
        let one = messages(Width::Two, two, held);
        if one.is_none() || one != messages(Width::Four, four, held) {
            return Err(self.shows(call, "the networks hold other messages"));
        }
        Ok(())
    }

    /// The difference that a call on both sides shows.
    fn shows(&self, call: &Call, told: &str) -> Difference {
        let mut shown = self
            .two
            .shows(call, &format!("in two words and four: {told}"));
        let text = format!("with four words a message:\n{}", self.four.text());
        shown.contents.extend(text.into_bytes());
        shown
    }
}

/// The messages that a state holds; none where there is less room, or behind
/// them a word that is not 0.
fn messages(width: Width, state: &State, held: u64) -> Option<Vec<Fields>> {
    let network = state.network.front();
    let behind = network.get(held as usize * width.words()..)?;
    let held = width.messages(network, held).collect();
    behind.iter().all(|&word| word == 0).then_some(held)
}

#[cfg(test)]
mod tests {
    use super::*;
    use crate::by_library::tests::counts_of;

    #[test]
    fn lists_are_answered_alike_and_every_end_is_met() {
        let counts = counts_of(case, 81, 800);
        assert_eq!(counts.carried.lists_lack(3), None, "{counts}");
    }
}
