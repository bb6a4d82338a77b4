//! One call of the library and the same of the reference, from the same words:
//! answers, runs and every word and byte compared, lent or not.

#[cfg(test)]
mod tests;

use crate::difference::{first_word, told, Difference};
use crate::lent::Lent;
use crate::reference_calls::{self, guarded};
use crate::scene::Scene;
use crate::words::{self, Numbers, RUN_WORDS, TICK, TIME};
use fever::raw;
use reference::Run;
use std::fmt::{Debug, Write};

/// All that a call may alter: a run with its lent words, events, a load with
/// the bytes for its lines, a report, and what a run is carried over to.
#[derive(Clone, Default, PartialEq, Eq, Debug)]
pub struct State {
    /// The run's words.
    pub run: Lent<u64>,
    /// The tally.
    pub tally: Lent<u64>,
    /// The network.
    pub network: Lent<u64>,
    /// Events to be applied together, four words each; no other call is lent
    /// them.
    pub events: Lent<u64>,
    /// The words of a load; no other call is lent them, nor the bytes.
    pub load: Lent<u64>,
    /// The bytes that its lines are written into.
    pub out: Lent<u8>,
    /// The words that a report is written into.
    pub report: Lent<u64>,
    /// The words that a run's messages are carried over to.
    pub target: Lent<u64>,
}

/// What a call is lent of a state.
struct Borrowed<'a> {
    run: &'a mut [u64],
    tally: &'a mut [u64],
    network: &'a mut [u64],
    events: &'a mut [u64],
    load: &'a mut [u64],
    out: &'a mut [u8],
    report: &'a mut [u64],
    target: &'a mut [u64],
}

/// A call that takes a run.
#[derive(Clone, Debug)]
pub enum Call {
    /// Opening a setup, given by its words.
    Open(Vec<u64>),
    /// Applying an event.
    Apply(Numbers),
    /// Applying the events of the state together.
    ApplyAll,
    /// Opening a setup, given by its words, and beginning the state's load.
    Generate(Vec<u64>),
    /// Going on with the state's load.
    GenerateMore,
    /// Reporting the traffic of the run.
    Traffic,
    /// Carrying the run over from four words a message to two.
    Pack,
    /// Carrying the run over from two words a message to four.
    Unpack,
}

impl State {
    /// The run, if all of its words are lent.
    pub fn decoded(&self) -> Option<Run> {
        let words = self.run.front();
        (words.len() >= RUN_WORDS).then(|| words::run_of(words))
    }

    /// What a schedule's author sees of it.
    pub fn scene<'a>(&'a self, run: &'a Run) -> Scene<'a> {
        Scene {
            run,
            tally: self.tally.front(),
            network: self.network.front(),
        }
    }

    fn borrowed(&mut self) -> Borrowed<'_> {
        Borrowed {
            run: self.run.front_mut(),
            tally: self.tally.front_mut(),
            network: self.network.front_mut(),
            events: self.events.front_mut(),
            load: self.load.front_mut(),
            out: self.out.front_mut(),
            report: self.report.front_mut(),
            target: self.target.front_mut(),
        }
    }

    /// Makes a call of the reference.
    pub fn refer(&mut self, call: &Call) -> u64 {
        let Borrowed {
            run,
            tally,
            network,
            events,
            load,
            out,
            report,
            target,
        } = self.borrowed();
        match call {
            Call::Open(setup) => reference_calls::open(setup, run, tally, network),
            Call::Apply(numbers) => reference_calls::apply(run, *numbers, tally, network),
            Call::ApplyAll => reference_calls::apply_all(run, tally, network, events),
            Call::Generate(setup) => {
                reference_calls::generate(setup, run, tally, network, load, out)
            }
            Call::GenerateMore => reference_calls::generate_more(run, tally, network, load, out),
            Call::Traffic => reference_calls::traffic(run, tally, network, report),
            Call::Pack => reference_calls::pack(run, tally, network, target),
            Call::Unpack => reference_calls::unpack(run, tally, network, target),
        }
    }

    /// Makes a call of the library.
    pub fn prove(&mut self, call: &Call) -> u64 {
        let Borrowed {
            run,
            tally,
            network,
            events,
            load,
            out,
            report,
            target,
        } = self.borrowed();
        match call {
            Call::Open(setup) => raw::open(setup, run, tally, network),
            &Call::Apply([form, kind, view, processor]) => {
                raw::apply(run, form, kind, view, processor, tally, network)
            }
            Call::ApplyAll => raw::apply_all(run, tally, network, events),
            Call::Generate(setup) => raw::generate(setup, run, tally, network, load, out),
            Call::GenerateMore => raw::generate_more(run, tally, network, load, out),
            Call::Traffic => raw::traffic(run, tally, network, report),
            Call::Pack => raw::pack(run, tally, network, target),
            Call::Unpack => raw::unpack(run, tally, network, target),
        }
    }

    /// Makes a call of both, and answers the check if they agree.
    pub fn both(&mut self, call: &Call) -> Result<u64, Difference> {
        let before = self.clone();
        let mut proved = self.clone();
        let answer = proved.prove(call);
        let expected = guarded(|| self.refer(call));
        let apart = |told: String| before.shows(call, &told);
        if Some(answer) != expected {
            let expected = told(expected);
            let told = format!("answers differ\nproved: {answer}\nreference: {expected}");
            return Err(apart(told));
        }
        if let Some(told) = proved.told_apart(self) {
            return Err(apart(told));
        }
        // Only ticks of which some were done before a check ended them.
        let rose = self.run.front().get(TIME) > before.run.front().get(TIME);
        let some_done = rose && matches!(call, Call::Apply([TICK, ..]));
        if answer != 0 && !some_done && *self != before {
            return Err(apart(format!(
                "refused by {answer}, both changed something"
            )));
        }
        Ok(answer)
    }

    /// The words that stand in it, each with their name.
    const fn named(&self) -> [(&str, &Lent<u64>); 7] {
        [
            ("run", &self.run),
            ("tally", &self.tally),
            ("network", &self.network),
            ("events", &self.events),
            ("load", &self.load),
            ("report", &self.report),
            ("target", &self.target),
        ]
    }

    /// The first word or byte in which two states differ.
    fn told_apart(&self, reference: &Self) -> Option<String> {
        let mut both = self.named().into_iter().zip(reference.named());
        both.find_map(|((name, proved), (_, reference))| {
            lent_apart("word", name, proved, reference)
        })
        .or_else(|| lent_apart("byte", "lines", &self.out, &reference.out))
    }

    /// The difference that a call on this state shows.
    pub fn shows(&self, call: &Call, told: &str) -> Difference {
        Difference {
            what: format!("a call of the library: {told}"),
            name: "difference.call".to_owned(),
            contents: format!("{call:?}\n{}", self.text()).into_bytes(),
        }
    }

    /// All that stands in it, to be looked at.
    pub fn text(&self) -> String {
        let mut text = String::new();
        for (name, lent) in self.named() {
            let (all, length) = (lent.all(), lent.front().len());
            // Writing to a string does not fail.
            let _ = writeln!(text, "{name}, {length} words lent, then others:\n{all:?}");
        }
        let (all, length) = (self.out.all(), self.out.front().len());
        let _ = writeln!(text, "{length} bytes lent, then others:\n{all:?}");
        text
    }
}

/// Where what is lent first differs, and both there.
fn lent_apart<T>(unit: &str, name: &str, proved: &Lent<T>, reference: &Lent<T>) -> Option<String>
where
    T: Copy + PartialEq + Debug,
{
    let place = first_word(proved.all(), reference.all())?;
    Some(format!(
        "{unit} {place} of the {name} differs ({} are lent)\nproved: {:?}\nreference: {:?}",
        proved.front().len(),
        proved.all().get(place),
        reference.all().get(place)
    ))
}
