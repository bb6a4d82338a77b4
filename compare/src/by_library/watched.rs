//! A run of the library under the watch of demand 3, its sums and reports
//! beside those of its history, with the calls since its opening.

use crate::calls::{Call, State};
use crate::counts::Counts;
use crate::difference::Difference;
use crate::list::List;
use crate::words::{event_of, traffic_of, TIME};
use reference::Answer;
use std::fmt::Write;

/// The list of events since the last accepted opening, or on a run that was
/// handed in, if there was one.
#[derive(Default)]
pub struct Watched {
    list: Option<List>,
    /// What the list began with and the calls since then, line by line.
    text: String,
}

impl Watched {
    /// Takes in an opening, the check it answered and the state it left: an
    /// accepted one begins a new list, a refused one is part of the old.
    pub fn opened(
        &mut self,
        call: &Call,
        check: u64,
        state: &State,
        counts: &mut Counts,
    ) -> Result<(), Difference> {
        let Some(run) = state.decoded().filter(|_| check == 0) else {
            self.called(call);
            return Ok(());
        };
        let (list, kept) = List::opened(state.scene(&run));
        let (tally, network) = (state.tally.front().len(), state.network.front().len());
        self.list = Some(list);
        self.text = format!("{tally} tally words and {network} network words lent\n");
        self.called(call);
        counts.lists += 1;
        self.complain_unless(kept)
    }

    /// Takes in a run that no list of events has left, or that has other sums
    /// than the list has left.
    pub fn handed_in(&mut self, state: &State) {
        let Some(run) = state.decoded() else {
            return;
        };
        let scene = state.scene(&run);
        match &mut self.list {
            Some(list) => list.hand_in_sums(scene),
            None => self.list = Some(List::handed_in(scene)),
        }
        self.text += "handed in:\n";
        self.text += &state.text();
    }

    /// Takes in an event, accepted or refused, with the time before it, the
    /// check it answered and the state it left.
    pub fn applied(
        &mut self,
        call: &Call,
        before: u64,
        check: u64,
        state: &State,
        counts: &mut Counts,
    ) -> Result<(), Difference> {
        self.called(call);
        let (Some(run), &Call::Apply(numbers)) = (state.decoded(), call) else {
            return Ok(());
        };
        let (Some(list), Some(event)) = (&mut self.list, event_of(numbers)) else {
            return Ok(());
        };
        let (ticks, held) = (run.time.saturating_sub(before), run.held);
        let answer = match check {
            0 => Answer::Done { ticks, held },
            _ if ticks > 0 => Answer::Stopped { ticks, held, check },
            _ => Answer::Refused(check),
        };
        let kept = list.after(event, &answer, state.scene(&run), counts);
        self.complain_unless(kept)
    }

    /// Takes in a report, with the check it answered and the state it left.
    pub fn reported(&mut self, check: u64, state: &State) -> Result<(), Difference> {
        self.called(&Call::Traffic);
        let Some(list) = &self.list else {
            return Ok(());
        };
        let report = match check {
            0 => Ok(traffic_of(state.report.front())),
            _ => Err(check),
        };
        self.complain_unless(list.reported(report))
    }

    fn called(&mut self, call: &Call) {
        // Writing to a string does not fail.
        let _ = writeln!(self.text, "{call:?}");
    }

    /// What the calls show, if something is not kept.
    fn complain_unless(&self, kept: Result<(), String>) -> Result<(), Difference> {
        kept.map_err(|what| Difference {
            what: format!("of both, {what}"),
            name: "complaint.calls".to_owned(),
            contents: self.text.clone().into_bytes(),
        })
    }
}

/// The time of a state, 0 if not even that word of the run is lent.
pub fn time(state: &State) -> u64 {
    state.run.front().get(TIME).copied().unwrap_or(0)
}

#[cfg(test)]
mod tests {
    use super::*;
    use crate::lent::Lent;
    use crate::words::{RUN_WORDS, SETUP_WORDS, TRAFFIC_WORDS, WAITS};

    const SETTLING: Call = Call::Apply([4, 0, 0, 0]);

    /// n=4, delta 2, gamma 4, 6 views, 3 of them per leader, all clocks 0,
    /// opened and reported.
    fn opened() -> (State, Watched, Counts) {
        let lent = |length| Lent::new(&vec![0; length], &[5, 5]);
        let mut state = State {
            run: lent(RUN_WORDS),
            tally: lent(24),
            network: lent(16),
            report: lent(TRAFFIC_WORDS),
            ..State::default()
        };
        let mut words = vec![4, 2, 4, 6, 3];
        words.resize(SETUP_WORDS, 0);
        let (mut watched, mut counts) = (Watched::default(), Counts::default());
        let opening = Call::Open(words);
        let check = state.refer(&opening);
        let kept = watched.opened(&opening, check, &state, &mut counts);
        assert!(kept.is_ok() && counts.lists == 1);
        let check = state.refer(&Call::Traffic);
        assert!(check == 0 && watched.reported(check, &state).is_ok());
        (state, watched, counts)
    }

    #[test]
    fn a_time_that_no_tick_explains_and_sums_of_no_history_are_complained_of() {
        let (mut state, mut watched, mut counts) = opened();
        let check = state.refer(&SETTLING);
        let kept = watched.applied(&SETTLING, 0, check, &state, &mut counts);
        assert!(kept.is_ok());
        let mut told = |time, waits, before, check| {
            state.run.front_mut()[TIME] = time;
            state.run.front_mut()[WAITS] = waits;
            let kept = watched.applied(&SETTLING, before, check, &state, &mut counts);
            kept.expect_err("it is not kept")
        };
        // Three ticks were not done; nothing was delivered; it was opened.
        let difference = told(3, 0, 3, 14);
        let what = difference.what;
        assert!(what.contains("demand 3 is not kept: time is 3"), "{what}");
        let text = String::from_utf8_lossy(&difference.contents).into_owned();
        assert_eq!(text.lines().count(), 5);
        let what = told(0, 1, 0, 14).what;
        assert!(what.contains("history tells otherwise"), "{what}");
        let what = told(0, 0, 0, 9).what;
        assert!(what.contains("opened is unsound"), "{what}");
        state.run.front_mut()[WAITS] = 1;
        watched.handed_in(&state);
        let kept = watched.applied(&SETTLING, 0, 14, &state, &mut counts);
        assert!(kept.is_ok());
    }

    #[test]
    fn a_spoilt_report_is_complained_of() {
        let (state, mut watched, _) = opened();
        let mut told = |words: &[(usize, u64)], check| {
            let mut state = state.clone();
            for &(place, more) in words {
                state.report.front_mut()[place] += more;
            }
            let kept = watched.reported(check, &state);
            kept.err().map(|difference| difference.what)
        };
        assert_eq!(told(&[], 0), None);
        assert_eq!(told(&[(0, 1)], 1), None);
        // One view certificate held too many; one too many that was sent as
        // well; a wait without a delivery; a refusal of a run that was opened.
        let not_kept = |what: Option<String>, part: &str| {
            let what = what.expect("it is not kept");
            assert!(what.contains(part), "{what}");
        };
        not_kept(told(&[(10, 1)], 0), "sent is not delivered plus held");
        not_kept(told(&[(2, 1), (10, 1)], 0), " and not ");
        not_kept(told(&[(12, 1)], 0), " and not ");
        not_kept(told(&[], 9), "opened is unsound");
    }

    #[test]
    fn a_spoilt_report_of_a_run_handed_in_is_complained_of() {
        let (mut state, _, _) = opened();
        state.run.front_mut()[WAITS] = 7;
        let mut watched = Watched::default();
        watched.handed_in(&state);
        let check = state.refer(&Call::Traffic);
        assert!(check == 0 && watched.reported(check, &state).is_ok());
        assert!(watched.reported(9, &state).is_ok());
        state.report.front_mut()[11] += 1;
        let difference = watched.reported(0, &state).expect_err("no such is held");
        assert!(difference.what.contains(" and not "));
        assert!(difference
            .contents
            .starts_with(b"handed in:\nrun, 147 words"));
    }
}
