//! Loads: a run opened and moved by events that a seed chooses, each of them
//! written as a line of a schedule. "Written as schedule lines, opening first
//! and ticks singly, each is accepted when read in turn with lent buffers as
//! long."

use crate::apply::apply_sound;
use crate::check;
use crate::form::Packed;
use crate::message::{Event, Message};
use crate::network;
use crate::opening::{self, open};
use crate::run::{Answer, Run, Setup};
use crate::soundness;
use crate::tick;
use crate::writer::{self, write_setup};

/// What a load is made with, and where it stands.
#[derive(Clone, Copy, PartialEq, Eq, Debug)]
pub struct Load {
    /// "a number of steps".
    pub steps: u64,
    /// "the step (from 0) before which it settles, none if at or above that
    /// number".
    pub settle: u64,
    /// The seed that the next draw starts from.
    pub seed: u64,
    /// The next step.
    pub step: u64,
}

/// What a call wrote of a load.
#[derive(Clone, Copy, PartialEq, Eq, Debug)]
pub struct Piece {
    /// The bytes of its whole lines.
    pub bytes: usize,
    /// Whether the lent bytes were too few for the next line; if not, the load
    /// has ended.
    pub full: bool,
}

/// Opens a run and begins its load. "a refused opening answers its check and
/// writes nothing"; nor does it alter the load. Where the bytes are too few
/// for the opening's line, the run is not opened.
pub fn generate(
    setup: &Setup,
    load: &mut Load,
    run: &mut Run,
    tally: &mut [u64],
    network: &mut [u64],
    out: &mut [u8],
) -> Result<Piece, u64> {
    opening::allowed(Packed, setup, tally, network)?;
    load.step = 0;
    let Ok(bytes) = write_setup(setup, out) else {
        let full = true;
        return Ok(Piece { bytes: 0, full });
    };
    open(setup, run, tally, network);
    let making = Making {
        run,
        tally,
        network,
        out,
        bytes,
    };
    Ok(making.steps(load))
}

/// Goes on with a load where the bytes were too few. Check 9 refuses a run
/// that is unsound but for its time, and nothing has changed then; in one
/// whose time alone is unsound it refuses the first event.
pub fn generate_more(
    load: &mut Load,
    run: &mut Run,
    tally: &mut [u64],
    network: &mut [u64],
    out: &mut [u8],
) -> Result<Piece, u64> {
    if !soundness::is_sound_but_for_time(run, tally, network) {
        return Err(check::UNSOUND);
    }
    let making = Making {
        run,
        tally,
        network,
        out,
        bytes: 0,
    };
    Ok(making.steps(load))
}

/// "The generator takes s × 6364136223846793005 + 1442695040888963407,
/// wrapping at 2^64 (Knuth's MMIX constants), and its draw is the new s
/// divided by 2^32, rounded down."
const fn draw(seed: &mut u64) -> u64 {
    *seed = seed
        .wrapping_mul(6_364_136_223_846_793_005)
        .wrapping_add(1_442_695_040_888_963_407);
    *seed >> 32
}

/// The line of a single tick.
const TICK: &[u8] = b"(tick 1)\n";
/// The line of settling.
const SETTLE: &[u8] = b"(settle)\n";

/// Why a load does not go on: "Any other refusal, or too few lent bytes for
/// the next line".
enum End {
    /// A check refuses the next event.
    Refused,
    /// Its line has no room.
    Full,
}

/// A load in the making. The run is sound, but perhaps for its time: no event
/// changes that.
struct Making<'a> {
    run: &'a mut Run,
    tally: &'a mut [u64],
    network: &'a mut [u64],
    out: &'a mut [u8],
    /// The bytes written.
    bytes: usize,
}

impl Making<'_> {
    /// The steps that are left, as far as they go. Seed and step are those
    /// before the step that ends it.
    fn steps(mut self, load: &mut Load) -> Piece {
        let mut full = false;
        while load.step < load.steps {
            match self.step(load) {
                Ok(seed) => (load.seed, load.step) = (seed, load.step + 1),
                Err(end) => {
                    full = matches!(end, End::Full);
                    break;
                }
            }
        }
        Piece {
            bytes: self.bytes,
            full,
        }
    }

    /// The next step, before it settling where that is due; answers the seed
    /// that it leaves.
    fn step(&mut self, load: &Load) -> Result<u64, End> {
        if load.step == load.settle && !self.run.settled {
            self.settle()?;
        }
        let mut seed = load.seed;
        match self.drawn(&mut seed) {
            Some(message) => self.deliver(message)?,
            None => self.tick()?,
        }
        Ok(seed)
    }

    /// "Each step draws once; draw mod 4 of 0 or 1 delivers, 2 or 3 ticks.
    /// Delivering draws again, and takes the network's message at that draw
    /// mod the number held, counted from 0; an empty network gives a tick and
    /// no second draw."
    fn drawn(&self, seed: &mut u64) -> Option<Message> {
        if draw(seed) % 4 > 1 || self.run.held == 0 {
            return None;
        }
        let place = draw(seed) % self.run.held;
        let stored = network::at(Packed, self.network, place as usize);
        Some(network::message(stored))
    }

    fn settle(&mut self) -> Result<(), End> {
        self.has_room(SETTLE)?;
        self.apply(Event::Settle).map_err(|_| End::Refused)?;
        self.put(SETTLE);
        Ok(())
    }

    /// Delivers a message by its name: "the first, of equal ones".
    fn deliver(&mut self, message: Message) -> Result<(), End> {
        let line = writer::delivery(message);
        self.has_room(line.bytes())?;
        let event = Event::Deliver(message);
        self.apply(event).map_err(|_| End::Refused)?;
        self.put(line.bytes());
        Ok(())
    }

    /// A single tick. "A tick refused as overdue becomes the delivery of the
    /// first overdue message", whose line is the longer one, so that bytes too
    /// few for the tick's are too few for either.
    fn tick(&mut self) -> Result<(), End> {
        self.has_room(TICK)?;
        match self.apply(Event::Tick(1)) {
            Ok(()) => {
                self.put(TICK);
                Ok(())
            }
            Err(check::OVERDUE) => {
                let overdue = self.first_overdue().ok_or(End::Refused)?;
                self.deliver(overdue)
            }
            Err(_) => Err(End::Refused),
        }
    }

    /// The first message of the network that is overdue.
    fn first_overdue(&self) -> Option<Message> {
        network::messages(Packed, self.network, self.run.held)
            .find(|stored| tick::is_overdue(self.run, Some(stored.sent)))
            .map(network::message)
    }

    /// Applies an event, of check 9 only its clause about the time being open.
    fn apply(&mut self, event: Event) -> Result<(), u64> {
        if self.run.time >= self.run.plan.clock_limit() {
            return Err(check::UNSOUND);
        }
        match apply_sound(self.run, event, self.tally, self.network) {
            Answer::Done { .. } => Ok(()),
            Answer::Stopped { check, .. } | Answer::Refused(check) => Err(check),
        }
    }

    /// Whether the bytes left are enough for a line. It is asked before the
    /// line's event is tried.
    const fn has_room(&self, line: &[u8]) -> Result<(), End> {
        if self.out.len() - self.bytes < line.len() {
            return Err(End::Full);
        }
        Ok(())
    }

    /// Writes a line for which there is room.
    fn put(&mut self, line: &[u8]) {
        let end = self.bytes + line.len();
        self.out[self.bytes..end].copy_from_slice(line);
        self.bytes = end;
    }
}
