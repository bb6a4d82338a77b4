//! A list of events from an accepted opening on, or on a run that was handed
//! in: under the watch of demand 3, its sums and reports beside those of its
//! history.

use crate::counts::Counts;
use crate::history::History;
use crate::scene::Scene;
use reference::{Answer, Event, Traffic, Watch};

/// What is said of a run that was opened and is refused by check 9.
const UNSOUND: &str = "a run that was opened is unsound";

/// What is kept of a list from event to event.
pub struct List {
    /// None where the run was handed in: "Demands 2 and 3 are about runs opened
    /// here and altered by events only."
    watch: Option<Watch>,
    history: History,
    /// Whether the list has come under the second sentence of demand 3.
    due: bool,
}

impl List {
    /// The list from an accepted opening on, and what the run that it left does
    /// not keep.
    pub fn opened(scene: Scene) -> (Self, Result<(), String>) {
        let (watch, watched) = Watch::opened(scene.run);
        let (history, told) = History::opened(scene);
        let list = Self {
            watch: Some(watch),
            history,
            due: false,
        };
        (list, kept(watched, told))
    }

    /// The list on a run that was handed in.
    pub fn handed_in(scene: Scene) -> Self {
        Self {
            watch: None,
            history: History::handed_in(scene),
            due: false,
        }
    }

    /// Goes on from other sums than the list has left. Demand 3 does not speak
    /// of them.
    pub fn hand_in_sums(&mut self, scene: Scene) {
        self.history = History::handed_in(scene);
    }

    /// Takes in the next event, its answer and the run that it left; counts what
    /// was met, and answers what is not kept.
    pub fn after(
        &mut self,
        event: Event,
        answer: &Answer,
        scene: Scene,
        counts: &mut Counts,
    ) -> Result<(), String> {
        let watched = self.watched(event, answer, scene, counts);
        let accepted = !matches!(answer, Answer::Refused(_));
        let told = self.history.after(event, accepted, scene);
        kept(
            watched,
            told.map(|bound_met| counts.traffic.bound_met += bound_met),
        )
    }

    /// What is not kept of demand 3.
    fn watched(
        &mut self,
        event: Event,
        answer: &Answer,
        scene: Scene,
        counts: &mut Counts,
    ) -> Result<(), String> {
        let Some(watch) = &mut self.watch else {
            return Ok(());
        };
        if *answer == Answer::Refused(9) {
            return Err(UNSOUND.to_owned());
        }
        let kept = watch.after(event, answer, scene.run, scene.tally);
        if !self.due && watch.ticks_since_settling() > watch.patience() {
            self.due = true;
            counts.due += 1;
            counts.turns.due(scene.run.plan);
        }
        kept
    }

    /// The report of the run, as its history tells it.
    pub fn traffic(&self) -> Traffic {
        self.history.traffic()
    }

    /// Takes in a report of the run, or the check that refused it; answers what
    /// is not kept.
    pub fn reported(&self, report: Result<Traffic, u64>) -> Result<(), String> {
        match report {
            Ok(report) => kept(Ok(()), self.history.judge_report(&report)),
            Err(9) if self.watch.is_some() => Err(UNSOUND.to_owned()),
            Err(_) => Ok(()),
        }
    }
}

/// What is kept of demand 3 and of the history, each with its name.
fn kept(watched: Result<(), String>, told: Result<(), String>) -> Result<(), String> {
    watched.map_err(|what| format!("demand 3 is not kept: {what}"))?;
    told.map_err(|what| format!("the history tells otherwise: {what}"))
}
