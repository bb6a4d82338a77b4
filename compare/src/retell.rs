//! A load told again, straight from the sentences about it: one event at a
//! time, every check asked, lines put together as text. What the reference
//! makes of a load has to be the same; and so it is known how each line came
//! about and what ended it.

use crate::difference::first_word;
use crate::load_counts::{Loads, Way};
use crate::scene::Scene;
use crate::text;
use reference::{apply, open, Answer, Event, Load, Run, Setup, NETWORK_WORDS, TALLY_WORDS};

/// A load told so far, with the run that its lines lead to.
#[derive(Clone, Debug)]
pub struct Told {
    /// The run.
    pub run: Run,
    /// The tally.
    pub tally: Vec<u64>,
    /// The network.
    pub network: Vec<u64>,
    /// Where the load stands.
    pub load: Load,
    /// The lines.
    pub text: Vec<u8>,
    /// Whether the next line had no room.
    pub full: bool,
}

impl Told {
    /// A load that has not begun, with as many lent words as the program lends.
    pub fn of_program(load: Load) -> Self {
        Self {
            run: Run::unopened(),
            tally: vec![0; TALLY_WORDS],
            network: vec![0; NETWORK_WORDS],
            load,
            text: Vec::new(),
            full: false,
        }
    }

    /// Begins the load of a setup that opens, in so many bytes.
    pub fn begin(&mut self, setup: &Setup, room: usize, counts: &mut Loads) {
        self.load.step = 0;
        let line = with_newline(text::opening(setup, setup.plan.n as usize));
        self.full = line.len() > room;
        if self.full {
            counts.unopened += 1;
            return;
        }
        open(setup, &mut self.run, &mut self.tally, &mut self.network);
        self.text = line;
        self.go_on(room, counts);
    }

    /// Goes on with the load while its lines come to no more than so many
    /// bytes.
    pub fn go_on(&mut self, room: usize, counts: &mut Loads) {
        self.full = false;
        while self.load.step < self.load.steps {
            let (way, event, seed) = self.chosen();
            let met = &mut counts.ways[way as usize];
            let line = with_newline(text::event(event));
            if self.text.len() + line.len() > room {
                met.full += 1;
                self.full = true;
                return;
            }
            match apply(&mut self.run, event, &mut self.tally, &mut self.network) {
                Answer::Done { .. } => met.done += 1,
                Answer::Stopped { check, .. } | Answer::Refused(check) => {
                    met.refused[check as usize] += 1;
                    return;
                }
            }
            self.text.extend(line);
            if way != Way::Settled {
                self.load.seed = seed;
                self.load.step += 1;
            }
        }
        counts.finished += 1;
    }

    /// The next event, how it comes about, and the seed that it leaves.
    fn chosen(&self) -> (Way, Event, u64) {
        let Load { settle, seed, .. } = self.load;
        if self.load.step == settle && !self.run.settled {
            return (Way::Settled, Event::Settle, seed);
        }
        let scene = Scene {
            run: &self.run,
            tally: &self.tally,
            network: &self.network,
        };
        // No message is held without a kind, where check 9 does not say so.
        let delivery = |place| scene.message(place).map_or(Event::Settle, Event::Deliver);
        let held = scene.messages().len() as u64;
        let (seed, draw) = draw(seed);
        let delivers = matches!(draw % 4, 0 | 1);
        if delivers && held > 0 {
            let (seed, draw) = self::draw(seed);
            return (Way::Drawn, delivery((draw % held) as usize), seed);
        }
        // "A tick refused as overdue", and not for the time by check 9.
        let in_time = self.run.time < self.run.plan.clock_limit();
        match scene.overdue().first() {
            Some(&place) if in_time => (Way::Overdue, delivery(place), seed),
            _ if delivers => (Way::Idle, Event::Tick(1), seed),
            _ => (Way::Ticked, Event::Tick(1), seed),
        }
    }

    /// The first thing in which another's run, buffers, load and lines differ
    /// from these, if they do.
    pub fn apart(&self, other: &Self) -> Option<&'static str> {
        let words = |one: &[u64], other: &[u64]| first_word(one, other).is_some();
        [
            ("lines", self.text != other.text),
            ("run", self.run != other.run),
            ("tally", words(&self.tally, &other.tally)),
            ("network", words(&self.network, &other.network)),
            ("load", self.load != other.load || self.full != other.full),
        ]
        .into_iter()
        .find_map(|(name, differs)| differs.then_some(name))
    }
}

/// The seed after a draw, and the draw.
const fn draw(seed: u64) -> (u64, u64) {
    let (factor, term) = (6_364_136_223_846_793_005, 1_442_695_040_888_963_407);
    let seed = (seed as u128 * factor + term) % (1 << 64);
    (seed as u64, (seed / (1 << 32)) as u64)
}

fn with_newline(mut line: Vec<u8>) -> Vec<u8> {
    line.push(b'\n');
    line
}
