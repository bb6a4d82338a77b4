//! The sums of a run and its reports told again, from the messages that came
//! into the network and left it. "The sums are those of the schedule's history:
//! sent is delivered plus held, kind by kind, and for any one view at most 2n
//! view messages and view certificates together are ever posted."

use crate::report::adds_up;
use crate::scene::Scene;
use crate::stored::Fields;
use reference::{ByKind, Event, Message, Sums, Traffic};

/// What has come into a network and left it so far.
#[derive(Clone, Debug)]
pub struct History {
    /// The sums: from an opening on, or from what was handed in.
    sums: Sums,
    /// The messages held.
    held: Vec<Fields>,
    /// Per view, the view messages and view certificates posted since the
    /// opening; none where the run was handed in.
    view_stage: Option<Vec<u64>>,
}

impl History {
    /// The history from an accepted opening on, which has posted all that is
    /// held; and whether the run's sums are those.
    pub fn opened(scene: Scene) -> (Self, Result<(), String>) {
        let views = scene.run.plan.views.min(6_000) as usize;
        let mut history = Self {
            sums: Sums::default(),
            held: Vec::new(),
            view_stage: Some(vec![0; views]),
        };
        let kept = history.look(scene).map(|_| ());
        (history, kept)
    }

    /// The history from a run on that was handed in, whatever its sums are.
    pub fn handed_in(scene: Scene) -> Self {
        Self {
            sums: scene.run.sums,
            held: scene.messages().collect(),
            view_stage: None,
        }
    }

    /// Takes in an event and whether it was accepted, and the run that it left;
    /// answers how many views it has brought to 2n view messages and view
    /// certificates, if the run's sums are those of its history.
    pub fn after(&mut self, event: Event, accepted: bool, scene: Scene) -> Result<u64, String> {
        if let (Event::Deliver(message), true) = (event, accepted) {
            self.deliver(message, scene.run.time)?;
        }
        self.look(scene)
    }

    /// The report of the run, as its history tells it.
    pub fn traffic(&self) -> Traffic {
        let mut held = [0; 4];
        for &[kind, ..] in &self.held {
            count(&mut held, kind);
        }
        let sums = self.sums;
        Traffic { sums, held }
    }

    /// Whether a report adds up, if the run was opened, and is the one that the
    /// history tells.
    pub fn judge_report(&self, report: &Traffic) -> Result<(), String> {
        if self.view_stage.is_some() && !adds_up(report) {
            return Err(format!("sent is not delivered plus held: {report:?}"));
        }
        let told = self.traffic();
        if *report != told {
            return Err(format!("{report:?} and not {told:?}"));
        }
        Ok(())
    }

    /// A message leaves: the first of equal ones.
    fn deliver(&mut self, message: Message, now: u64) -> Result<(), String> {
        let name = [message.kind(), message.view(), message.processor()];
        let equal = |fields: &Fields| fields[..3] == name;
        let Some(place) = self.held.iter().position(equal) else {
            return Err(format!("{message:?} was delivered and not held"));
        };
        let sent = self.held.remove(place)[3];
        count(&mut self.sums.delivered, message.kind());
        self.sums.waits = self.sums.waits.wrapping_add(now - sent);
        Ok(())
    }

    /// Takes in what stands behind the messages known, and judges the sums;
    /// answers as [`History::after`].
    fn look(&mut self, scene: Scene) -> Result<u64, String> {
        let mut now = scene.messages();
        if !self.held.iter().all(|&known| now.next() == Some(known)) {
            return Err("messages held before have moved".to_owned());
        }
        let posted: Vec<Fields> = now.collect();
        let mut bound_met = 0;
        for &[kind, view, ..] in &posted {
            count(&mut self.sums.sent, kind);
            if let (Some(view_stage), 1 | 3) = (&mut self.view_stage, kind) {
                let number = &mut view_stage[view as usize];
                *number += 1;
                bound_met += u64::from(*number == bound(scene));
            }
        }
        let seen: Vec<u64> = posted.iter().map(|&[_, view, ..]| view).collect();
        self.held.extend(posted);
        self.judge(scene, &seen).map(|()| bound_met)
    }

    /// Whether a run has these sums and, if it was opened, no view has too many
    /// messages; only those with new ones are asked. That the sums add up is
    /// asked of reports: here it could not fail, since all of them are kept from
    /// the same messages.
    fn judge(&self, scene: Scene, seen: &[u64]) -> Result<(), String> {
        let (sums, own) = (self.sums, scene.run.sums);
        if own != sums {
            return Err(format!("{own:?} and not {sums:?}"));
        }
        let Some(view_stage) = &self.view_stage else {
            return Ok(());
        };
        let most = bound(scene);
        match seen.iter().find(|&&view| view_stage[view as usize] > most) {
            None => Ok(()),
            Some(view) => Err(format!(
                "more than {most} view messages and view certificates for view {view}"
            )),
        }
    }
}

/// The view messages and view certificates for any one view, at most: "2n".
const fn bound(scene: Scene) -> u64 {
    2 * scene.run.plan.n
}

/// One message more of a kind, from 1 to 4 wherever check 9 passes a run.
fn count(numbers: &mut ByKind, kind: u64) {
    if let Some(number) = numbers.get_mut((kind as usize).wrapping_sub(1)) {
        *number = number.wrapping_add(1);
    }
}

#[cfg(test)]
mod tests {
    use super::*;
    use crate::report::lines;
    use reference::{apply, open, report_traffic, Plan, Run, Setup};

    /// n=4, delta 2, gamma 4, 6 views, all clocks 0, just opened.
    fn run() -> (Run, Vec<u64>, Vec<u64>) {
        let plan = Plan {
            n: 4,
            delta: 2,
            gamma: 4,
            views: 6,
            k: 3,
        };
        let (faulty, clocks) = (0, [0; 64]);
        let setup = Setup {
            plan,
            faulty,
            clocks,
        };
        let (mut run, mut tally, mut network) = (Run::unopened(), vec![0; 24], vec![0; 64]);
        open(&setup, &mut run, &mut tally, &mut network);
        (run, tally, network)
    }

    const EVENTS: [Event; 3] = [
        Event::Tick(1),
        Event::Deliver(Message::View(0, 1)),
        Event::Deliver(Message::View(0, 3)),
    ];

    #[test]
    fn the_history_of_a_run_tells_its_sums() {
        let (mut run, mut tally, mut network) = run();
        let (mut history, kept) = History::opened(scene(&run, &tally, &network));
        assert_eq!(kept, Ok(()));
        // The second view message heard makes four certificates: view 0 has 2n.
        for (event, bound_met) in EVENTS.into_iter().zip([0, 0, 1]) {
            apply(&mut run, event, &mut tally, &mut network);
            let kept = history.after(event, true, scene(&run, &tally, &network));
            assert_eq!(kept, Ok(bound_met));
        }
        let schedule = b"(open 4 2 4 6 0 (0 0 0 0))\n(tick 1)\n(deliver (view 0 1))\n\
                         (deliver (view 0 3))\n";
        assert_eq!(
            lines(&history.traffic()).as_bytes(),
            report_traffic(schedule)
        );
        assert_eq!(history.traffic().sums.waits, 2);
    }

    #[test]
    fn sums_that_are_others_are_told() {
        for spoil in [
            |run: &mut Run| run.sums.sent[2] += 1,
            |run: &mut Run| run.sums.delivered[0] -= 1,
            |run: &mut Run| run.sums.waits += 1,
        ] {
            let (mut run, mut tally, mut network) = run();
            let mut history = History::handed_in(scene(&run, &tally, &network));
            for event in EVENTS {
                apply(&mut run, event, &mut tally, &mut network);
                let kept = history.after(event, true, scene(&run, &tally, &network));
                assert_eq!(kept, Ok(0));
            }
            spoil(&mut run);
            let kept = history.after(Event::Settle, false, scene(&run, &tally, &network));
            assert!(kept.is_err());
        }
    }

    #[test]
    fn reports_that_are_others_are_told() {
        let (run, tally, network) = run();
        let scene = scene(&run, &tally, &network);
        let (opened, handed_in) = (History::opened(scene).0, History::handed_in(scene));
        let judged = |spoil: fn(&mut Traffic)| {
            let mut report = opened.traffic();
            spoil(&mut report);
            [&opened, &handed_in].map(|history| history.judge_report(&report).err())
        };
        assert_eq!(judged(|_| ()), [None, None]);
        let [by_opened, by_handed_in] =
            judged(|report| report.held[2] += 1).map(|told| told.expect("nothing else is held"));
        assert!(by_opened.starts_with("sent is not delivered plus held"));
        assert!(by_handed_in.contains(" and not "));
        for spoil in [
            |report: &mut Traffic| report.sums.waits += 1,
            |report: &mut Traffic| report.held.swap(1, 2),
            // It adds up all the same.
            |report: &mut Traffic| {
                report.held.swap(1, 2);
                report.sums.sent.swap(1, 2);
            },
        ] {
            assert!(judged(spoil).iter().all(Option::is_some));
        }
    }

    #[test]
    fn too_many_messages_of_the_view_stage_are_told() {
        let (mut run, tally, mut network) = run();
        let (mut history, _) = History::opened(scene(&run, &tally, &network));
        // Four view messages are posted; five certificates make them nine.
        for place in 8..13 {
            network[2 * place] = 2 << 6;
        }
        run.held = 13;
        run.sums.sent[2] = 5;
        let kept = history.after(Event::Settle, true, scene(&run, &tally, &network));
        let told = "more than 8 view messages and view certificates for view 0";
        assert_eq!(kept, Err(told.to_owned()));
        network[0] = 1 << 6;
        let kept = history.after(Event::Settle, true, scene(&run, &tally, &network));
        assert!(kept.is_err_and(|what| what.contains("moved")));
    }

    fn scene<'a>(run: &'a Run, tally: &'a [u64], network: &'a [u64]) -> Scene<'a> {
        Scene {
            run,
            tally,
            network,
        }
    }
}
