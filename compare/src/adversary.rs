//! Styles of play: how a network and faulty processors may pick the next
//! event of a run, from what is in flight and who is where.

use crate::calls::State;
use crate::draws::Draws;
use crate::lies::{self, Lies};
use crate::scene::Scene;
use crate::words::FAULTY;
use reference::Event;

/// Which message in flight is delivered next, if any.
#[derive(Clone, Copy, Debug)]
pub enum Order {
    /// The one sent first.
    Oldest,
    /// The one sent last.
    Newest,
    /// Any.
    Any,
    /// None before it is overdue: every delay to the last legal tick.
    Last,
    /// Any but those to one processor, which come when they are overdue.
    Starve(u64),
    /// None, overdue or not.
    Never,
}

/// When the network settles.
#[derive(Clone, Copy, Debug)]
pub enum Settling {
    /// With the first event.
    First,
    /// Once so much time has gone by.
    At(u64),
    /// Not at all.
    Never,
}

/// How many ticks one event asks for.
#[derive(Clone, Copy, Debug)]
pub enum Pace {
    /// One.
    One,
    /// From 1 to so many.
    UpTo(u64),
    /// To where something happens next: an entry by clock, a message overdue,
    /// the last clock; or one tick less or more.
    Edge,
    /// So many that only a check ends them.
    Long,
}

/// One way to play.
#[derive(Clone, Copy, Debug)]
pub struct Style {
    /// Which message is delivered next.
    pub order: Order,
    /// How many in a thousand events deliver where one may be delivered.
    pub deliveries: u64,
    /// What the faulty processors do.
    pub lies: Lies,
    /// How many in a thousand events are theirs, where they have one.
    pub lying: u64,
    /// When the network settles.
    pub settling: Settling,
    /// How many ticks an event asks for.
    pub pace: Pace,
}

impl Style {
    /// A drawn style for the run of a state, all of whose words are lent.
    pub fn of(state: &State, draws: &mut Draws) -> Self {
        let words = state.run.front();
        Self::drawn(draws, words[0], words[FAULTY])
    }

    /// A drawn style for runs of n processors, these of them faulty.
    pub fn drawn(draws: &mut Draws, n: u64, faulty: u64) -> Self {
        let starved = correct(draws, n, faulty);
        let favourite = correct(draws, n, faulty);
        let time = draws.below(200);
        let few = draws.between(1, 9);
        Self {
            order: draws.one_of(&[
                Order::Oldest,
                Order::Newest,
                Order::Any,
                Order::Any,
                Order::Last,
                Order::Last,
                Order::Last,
                Order::Starve(starved),
                Order::Starve(starved),
                Order::Never,
            ]),
            deliveries: draws.one_of(&[300, 700, 900, 990, 1_000]),
            lies: draws.one_of(&[
                Lies::None,
                Lies::Eager,
                Lies::Decisive,
                Lies::Decisive,
                Lies::Late,
                Lies::ToOne(favourite),
                Lies::ToOne(favourite),
                Lies::Any,
            ]),
            lying: draws.one_of(&[20, 100, 400]),
            settling: draws.one_of(&[
                Settling::First,
                Settling::First,
                Settling::At(time),
                Settling::At(time),
                Settling::Never,
            ]),
            pace: draws.one_of(&[
                Pace::One,
                Pace::UpTo(few),
                Pace::Edge,
                Pace::Edge,
                Pace::Long,
            ]),
        }
    }

    /// The next event.
    pub fn next(&self, scene: Scene, draws: &mut Draws) -> Event {
        if self.settles(scene) {
            return Event::Settle;
        }
        if draws.per_mille(self.lying) {
            if let Some(event) = lies::pick(self.lies, scene, draws) {
                return event;
            }
        }
        match self
            .delivered(scene, draws)
            .and_then(|place| scene.message(place))
        {
            Some(message) => Event::Deliver(message),
            None => Event::Tick(self.ticks(scene, draws)),
        }
    }

    /// Whether the network settles now.
    fn settles(&self, scene: Scene) -> bool {
        let run = scene.run;
        !run.settled
            && match self.settling {
                Settling::First => true,
                Settling::At(time) => run.time >= time,
                Settling::Never => false,
            }
    }

    /// The place of the message to deliver, if one is to be delivered.
    fn delivered(&self, scene: Scene, draws: &mut Draws) -> Option<usize> {
        let held = scene.messages().len();
        if held == 0 || matches!(self.order, Order::Never) {
            return None;
        }
        // Now and then a tick is asked for all the same, and refused by 16.
        let overdue = scene.overdue();
        if !overdue.is_empty() && draws.per_mille(950) {
            return Some(draws.one_of(&overdue));
        }
        // A full network would refuse nearly everything from now on.
        let any = draws.place(held);
        if scene.room() < scene.run.plan.n && draws.per_mille(600) {
            return Some(any);
        }
        if !draws.per_mille(self.deliveries) {
            return None;
        }
        match self.order {
            Order::Oldest => Some(0),
            Order::Newest => Some(held - 1),
            Order::Any => Some(any),
            Order::Starve(processor) => {
                let message = scene.messages().nth(any)?;
                (scene.receiver(message) != processor).then_some(any)
            }
            // Before the network settles no delay is the last legal one.
            Order::Last => (!scene.run.settled && draws.per_mille(500)).then_some(any),
            Order::Never => None,
        }
    }

    /// How many ticks to ask for.
    fn ticks(&self, scene: Scene, draws: &mut Draws) -> u64 {
        match self.pace {
            Pace::One => 1,
            Pace::UpTo(most) => draws.between(1, most),
            Pace::Edge => edge(scene, draws),
            Pace::Long => draws.one_of(&[1, 10, 1_000, 1_000_000, 1_000_000, u64::MAX]),
        }
    }
}

/// One of the correct processors.
pub fn correct(draws: &mut Draws, n: u64, faulty: u64) -> u64 {
    let correct: Vec<u64> = (0..n.min(64))
        .filter(|&number| faulty >> number & 1 == 0)
        .collect();
    draws.one_of(&correct)
}

/// The ticks to where something happens next, or one less or more.
pub fn edge(scene: Scene, draws: &mut Draws) -> u64 {
    let entry = scene.ticks_to_entry();
    let overdue = scene.ticks_to_overdue().unwrap_or(entry);
    let ticks = draws.one_of(&[entry, overdue, entry.min(overdue), scene.ticks_to_end()]);
    (ticks + draws.below(3)).saturating_sub(1).max(1)
}

#[cfg(test)]
mod tests {
    use super::*;
    use crate::trace::Trace;
    use reference::Answer;

    #[test]
    fn only_the_correct_are_picked() {
        let mut draws = Draws::new(4);
        assert!((0..50).all(|_| matches!(correct(&mut draws, 4, 0b1010), 0 | 2)));
    }

    #[test]
    fn the_last_legal_tick_is_waited_for() {
        let style = Style {
            order: Order::Last,
            deliveries: 1_000,
            lies: Lies::None,
            lying: 0,
            settling: Settling::First,
            pace: Pace::One,
        };
        let mut trace = Trace::new();
        trace.line(b"(open 4 2 4 30 0 (0 0 0 0))");
        let mut draws = Draws::new(3);
        assert_eq!(style.next(trace.scene(), &mut draws), Event::Settle);
        trace.event(Event::Settle);
        for _ in 0..2 {
            assert_eq!(style.next(trace.scene(), &mut draws), Event::Tick(1));
            trace.event(Event::Tick(1));
        }
        assert_eq!(trace.event(Event::Tick(1)), Answer::Refused(16));
        let next = |_| style.next(trace.scene(), &mut draws);
        let delivered = (0..100)
            .map(next)
            .filter(|event| matches!(event, Event::Deliver(_)));
        assert!(delivered.count() > 80);
    }
}
