//! A run with its lent words, and a source of drawn numbers.

use reference::{apply, is_sound, open, Answer, Event, Plan, Run, Setup};

/// n=4, delta 2, gamma 4, 6 views: "unless said"; 3 views per leader.
pub const USUAL: Plan = Plan {
    n: 4,
    delta: 2,
    gamma: 4,
    views: 6,
    k: 3,
};

/// A run and its lent words.
#[derive(Clone, PartialEq, Eq, Debug)]
pub struct World {
    pub run: Run,
    pub tally: Vec<u64>,
    pub network: Vec<u64>,
}

impl World {
    /// Unopened, with so many lent words.
    pub fn lent(tally: usize, network: usize) -> Self {
        Self {
            run: Run::unopened(),
            tally: vec![0; tally],
            network: vec![0; network],
        }
    }

    /// Opened with the program's words.
    pub fn opened(setup: &Setup) -> Self {
        let mut world = Self::lent(3_600, 2_048);
        assert!(matches!(world.open(setup), Answer::Done { ticks: 0, .. }));
        assert!(world.is_sound());
        world
    }

    pub fn open(&mut self, setup: &Setup) -> Answer {
        open(setup, &mut self.run, &mut self.tally, &mut self.network)
    }

    pub fn apply(&mut self, event: Event) -> Answer {
        apply(&mut self.run, event, &mut self.tally, &mut self.network)
    }

    /// Applies an event that must be accepted.
    pub fn must(&mut self, event: Event) {
        let answer = self.apply(event);
        assert!(
            !matches!(answer, Answer::Refused(_)),
            "{event:?} {answer:?}"
        );
    }

    /// Applies an event that must be refused so, with nothing changed.
    pub fn refuses(&mut self, event: Event, check: u64) {
        let before = self.clone();
        assert_eq!(self.apply(event), Answer::Refused(check), "{event:?}");
        assert!(*self == before, "{event:?} changed something");
    }

    pub fn is_sound(&self) -> bool {
        is_sound(&self.run, &self.tally, &self.network)
    }

    /// The messages held: kind, view, processor, sending time.
    pub fn held(&self) -> Vec<[u64; 4]> {
        let (pairs, _) = self.network.as_chunks();
        pairs[..self.run.held as usize]
            .iter()
            .map(|&[word, sent]| [(word >> 6 & 7) + 1, word >> 9, word & 63, sent])
            .collect()
    }

    /// Puts a message into a place: kind, view, processor, sending time.
    pub fn put(&mut self, place: usize, [kind, view, processor, sent]: [u64; 4]) {
        let word = view << 9 | (kind - 1) << 6 | processor;
        self.network[2 * place..2 * place + 2].copy_from_slice(&[word, sent]);
    }
}

/// A setup with these clocks, 0 for the rest.
pub fn setup(plan: Plan, faulty: u64, clocks: &[u64]) -> Setup {
    let mut table = [0; 64];
    table[..clocks.len()].copy_from_slice(clocks);
    Setup {
        plan,
        faulty,
        clocks: table,
    }
}

/// The usual setup with these clocks.
pub fn usual(clocks: &[u64]) -> Setup {
    setup(USUAL, 0, clocks)
}

/// What an opening with the program's words answers, the run left apart.
pub fn opening(setup: &Setup) -> Answer {
    World::lent(3_600, 2_048).open(setup)
}

/// Drawn numbers, the same on every test run.
pub struct Draws(pub u64);

impl Draws {
    /// Any number.
    pub fn any(&mut self) -> u64 {
        self.0 = self.0.wrapping_add(0x9E37_79B9_7F4A_7C15);
        let mut mixed = self.0;
        mixed = (mixed ^ (mixed >> 30)).wrapping_mul(0xBF58_476D_1CE4_E5B9);
        mixed = (mixed ^ (mixed >> 27)).wrapping_mul(0x94D0_49BB_1331_11EB);
        mixed ^ (mixed >> 31)
    }

    /// A number below a bound from 1.
    pub fn below(&mut self, bound: u64) -> u64 {
        self.any() % bound
    }

    /// One of these.
    pub fn one_of<T: Copy>(&mut self, choices: &[T]) -> T {
        choices[self.below(choices.len() as u64) as usize]
    }
}
