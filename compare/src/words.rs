//! Runs, setups and events as the numbers that the library's calls take.

use reference::{ByKind, Event, Load, Message, Piece, Plan, Run, Setup, Sums, Traffic};

/// The words of a run: n, delta, gamma, views, k, faulty, time, settled, gst,
/// held, 64 clocks, 64 views, four numbers of messages sent and four of those
/// delivered, by kind, and the sum of waits.
pub const RUN_WORDS: usize = 147;
/// The words of a setup: n, delta, gamma, views, k, faulty and 64 clocks.
pub const SETUP_WORDS: usize = 70;
/// The words of a line read: an event's four numbers and a setup.
pub const READ_WORDS: usize = 4 + SETUP_WORDS;
/// The words of a load: steps, settling step, seed, the next step, the bytes
/// written, and whether they were too few.
pub const LOAD_WORDS: usize = 6;
/// The words of a report: four numbers of messages sent, delivered and held
/// each, by kind, and the sum of waits.
pub const TRAFFIC_WORDS: usize = 13;
/// Where a load keeps its steps.
pub const STEPS: usize = 0;
/// Where a load keeps its settling step.
pub const SETTLE: usize = 1;
/// Where a load keeps its seed.
pub const SEED: usize = 2;
/// Where a load keeps its next step.
pub const STEP: usize = 3;
/// Where a load keeps how many bytes were written.
pub const BYTES: usize = 4;
/// Where a load keeps whether the bytes were too few.
pub const FULL: usize = 5;
/// Where a run and a setup keep the views per leader.
pub const PER_LEADER: usize = 4;
/// Where a run and a setup keep the faulty processors.
pub const FAULTY: usize = 5;
/// Where a setup keeps its first start clock.
pub const START: usize = 6;
/// Where a run keeps its time.
pub const TIME: usize = 6;
/// Where a run keeps whether it has settled.
pub const SETTLED: usize = 7;
/// Where a run keeps when it settled.
pub const GST: usize = 8;
/// Where a run keeps how many messages are held.
pub const HELD: usize = 9;
/// Where a run keeps its first clock.
pub const CLOCKS: usize = 10;
/// Where a run keeps its first view.
pub const VIEWS: usize = 74;
/// Where a run keeps how many messages were sent, by kind.
pub const SENT: usize = 138;
/// Where a run keeps how many messages were delivered, by kind.
pub const DELIVERED: usize = 142;
/// Where a run keeps the sum of waits.
pub const WAITS: usize = 146;
/// The form number of ticks.
pub const TICK: u64 = 5;
/// The form number of an opening that was read.
pub const OPENING: u64 = 6;

/// An event as form, kind, view (the ticks of a tick) and processor.
pub type Numbers = [u64; 4];

/// The plan that stands first in a run and in a setup.
fn plan_of(words: &[u64]) -> Plan {
    Plan {
        n: words[0],
        delta: words[1],
        gamma: words[2],
        views: words[3],
        k: words[PER_LEADER],
    }
}

/// The words of a plan.
const fn plan_words(plan: Plan) -> [u64; FAULTY] {
    let Plan {
        n,
        delta,
        gamma,
        views,
        k,
    } = plan;
    [n, delta, gamma, views, k]
}

/// 64 words from a place on.
fn table(words: &[u64], from: usize) -> [u64; 64] {
    let mut table = [0; 64];
    table.copy_from_slice(&words[from..from + 64]);
    table
}

/// Four words from a place on.
fn by_kind(words: &[u64], from: usize) -> ByKind {
    let mut numbers = [0; 4];
    numbers.copy_from_slice(&words[from..from + 4]);
    numbers
}

/// The sums in the words of a run.
pub fn sums_of(words: &[u64]) -> Sums {
    Sums {
        sent: by_kind(words, SENT),
        delivered: by_kind(words, DELIVERED),
        waits: words[WAITS],
    }
}

/// The run that its words stand for; any settled word but 0 is settled.
pub fn run_of(words: &[u64]) -> Run {
    Run {
        plan: plan_of(words),
        faulty: words[FAULTY],
        time: words[TIME],
        settled: words[SETTLED] != 0,
        gst: words[GST],
        held: words[HELD],
        clocks: table(words, CLOCKS),
        views: table(words, VIEWS),
        sums: sums_of(words),
    }
}

/// Writes a run over the first of these words.
pub fn put_run(run: &Run, words: &mut [u64]) {
    let settled = u64::from(run.settled);
    let front = [run.faulty, run.time, settled, run.gst, run.held];
    words[..FAULTY].copy_from_slice(&plan_words(run.plan));
    words[FAULTY..CLOCKS].copy_from_slice(&front);
    words[CLOCKS..VIEWS].copy_from_slice(&run.clocks);
    words[VIEWS..SENT].copy_from_slice(&run.views);
    put_sums(&run.sums, words);
}

/// Writes sums over those of a run's words.
pub fn put_sums(sums: &Sums, words: &mut [u64]) {
    words[SENT..DELIVERED].copy_from_slice(&sums.sent);
    words[DELIVERED..WAITS].copy_from_slice(&sums.delivered);
    words[WAITS] = sums.waits;
}

/// The words of a report.
pub fn traffic_words(Traffic { sums, held }: &Traffic) -> [u64; TRAFFIC_WORDS] {
    let mut words = [sums.waits; TRAFFIC_WORDS];
    words[..4].copy_from_slice(&sums.sent);
    words[4..8].copy_from_slice(&sums.delivered);
    words[8..12].copy_from_slice(held);
    words
}

/// The report that its words stand for.
pub fn traffic_of(words: &[u64]) -> Traffic {
    let sums = Sums {
        sent: by_kind(words, 0),
        delivered: by_kind(words, 4),
        waits: words[12],
    };
    let held = by_kind(words, 8);
    Traffic { sums, held }
}

/// The setup that its words stand for.
pub fn setup_of(words: &[u64]) -> Setup {
    Setup {
        plan: plan_of(words),
        faulty: words[FAULTY],
        clocks: table(words, START),
    }
}

/// The words of a setup.
pub fn setup_words(setup: &Setup) -> [u64; SETUP_WORDS] {
    let mut words = [0; SETUP_WORDS];
    words[..FAULTY].copy_from_slice(&plan_words(setup.plan));
    words[FAULTY] = setup.faulty;
    words[START..].copy_from_slice(&setup.clocks);
    words
}

/// The load that its words stand for.
pub fn load_of(words: &[u64]) -> Load {
    Load {
        steps: words[STEPS],
        settle: words[SETTLE],
        seed: words[SEED],
        step: words[STEP],
    }
}

/// Writes where a load stands over the first of these words, and what a call
/// wrote of it.
pub fn put_load(load: &Load, piece: Piece, words: &mut [u64]) {
    words[SEED] = load.seed;
    words[STEP] = load.step;
    words[BYTES] = piece.bytes as u64;
    words[FULL] = u64::from(piece.full);
}

/// The message of a kind.
pub const fn message_of(kind: u64, view: u64, processor: u64) -> Option<Message> {
    match kind {
        1 => Some(Message::View(view, processor)),
        2 => Some(Message::Vote(view, processor)),
        3 => Some(Message::Vc(view, processor)),
        4 => Some(Message::Qc(view, processor)),
        _ => None,
    }
}

/// The event that its numbers stand for, if form and kind are any.
pub fn event_of([form, kind, view, processor]: Numbers) -> Option<Event> {
    let message = message_of(kind, view, processor);
    match form {
        1 => message.map(Event::Deliver),
        2 => message.map(Event::Sign),
        3 => message.map(Event::Show),
        4 => Some(Event::Settle),
        5 => Some(Event::Tick(view)),
        _ => None,
    }
}

/// The numbers of an event, 0 for those it does not have.
pub const fn numbers_of(event: Event) -> Numbers {
    let (form, message) = match event {
        Event::Deliver(message) => (1, message),
        Event::Sign(message) => (2, message),
        Event::Show(message) => (3, message),
        Event::Settle => return [4, 0, 0, 0],
        Event::Tick(ticks) => return [5, 0, ticks, 0],
    };
    [form, message.kind(), message.view(), message.processor()]
}

#[cfg(test)]
mod tests {
    use super::*;

    #[test]
    fn words_and_back() {
        let words: Vec<u64> = (0..RUN_WORDS as u64)
            .map(|word| if word == 7 { 1 } else { 1_000 + word })
            .collect();
        let mut again = vec![0; RUN_WORDS];
        put_run(&run_of(&words), &mut again);
        assert_eq!(words, again);
        assert_eq!(
            setup_words(&setup_of(&words[..SETUP_WORDS]))[..],
            words[..SETUP_WORDS]
        );
    }

    #[test]
    fn a_report_stands_in_its_words() {
        let words: Vec<u64> = (0..RUN_WORDS as u64).collect();
        let sums = sums_of(&words);
        let held = [1, 2, 3, 4];
        let report = traffic_words(&Traffic { sums, held });
        assert_eq!(report[..8], words[SENT..WAITS]);
        assert_eq!(report[8..], [1, 2, 3, 4, 146]);
        assert_eq!(traffic_of(&report), Traffic { sums, held });
    }

    #[test]
    fn a_load_stands_in_its_words() {
        let mut words = [9, 8, 7, 6, 5, 4, 3];
        let mut load = load_of(&words);
        (load.seed, load.step) = (load.seed + 1, load.step + 1);
        let (bytes, full) = (50, true);
        put_load(&load, Piece { bytes, full }, &mut words);
        assert_eq!(words, [9, 8, 8, 7, 50, 1, 3]);
    }

    #[test]
    fn numbers_and_back() {
        for form in 1..=3 {
            for kind in 1..=4 {
                let numbers = [form, kind, 7, 9];
                assert_eq!(event_of(numbers).map(numbers_of), Some(numbers));
            }
        }
        for numbers in [[4, 0, 0, 0], [5, 0, 12, 0]] {
            assert_eq!(event_of(numbers).map(numbers_of), Some(numbers));
        }
        for numbers in [[0, 1, 0, 0], [6, 1, 0, 0], [1, 0, 0, 0], [3, 5, 0, 0]] {
            assert_eq!(event_of(numbers), None);
        }
    }
}
