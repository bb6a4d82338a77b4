//! Reports of a run's traffic: on sound runs and spoilt ones, with any sums, and
//! into any number of words.

use super::spoil::{spoil, unmake};
use super::{states, sums, unsound};
use crate::calls::{Call, State};
use crate::counts::Counts;
use crate::difference::Difference;
use crate::draws::Draws;
use crate::lent::Lent;
use crate::report_counts::Refusal;
use crate::words::{traffic_of, SETTLED, TRAFFIC_WORDS};
use reference::{is_sound, is_sound_but_for_time, Run};

/// Copies of one state that are reported.
const COPIES: u64 = 20;
/// Events before the state, at most.
const EVENTS: u64 = 60;
/// The words lent for a report, at most.
const MOST_WORDS: usize = 20;

/// One state and its copies, most of them spoilt; words that no opening has
/// touched; at times the longest networks.
pub fn case(draws: &mut Draws, counts: &mut Counts) -> Result<(), Difference> {
    let Some((mut good, run)) = states::sound(draws, 500, EVENTS) else {
        return Ok(());
    };
    for _ in 0..COPIES {
        if draws.per_mille(500) {
            sums::hand_in(&mut good, draws);
        }
        let mut state = good.clone();
        for _ in 0..draws.one_of(&[0, 0, 1, 1, 2, 3]) {
            spoil(&mut state, &run, draws);
        }
        if draws.per_mille(80) {
            unmake(&mut state, draws);
        }
        reported(&mut state, draws, counts)?;
    }
    reported(&mut states::fresh(draws).0, draws, counts)?;
    if draws.per_mille(15) {
        for length in unsound::LONGEST {
            let mut state = unsound::lengthened(&good, length, draws);
            reported(&mut state, draws, counts)?;
        }
    }
    Ok(())
}

/// Makes both calls of a report into words that hold anything, and counts them;
/// answers the check.
pub fn reported(
    state: &mut State,
    draws: &mut Draws,
    counts: &mut Counts,
) -> Result<u64, Difference> {
    let (few, any) = (draws.place(TRAFFIC_WORDS), draws.place(MOST_WORDS + 1));
    let all = TRAFFIC_WORDS;
    let length = draws.one_of(&[all, all, all, all, all + 1, all - 1, any, few]);
    state.report = Lent::untouched(length, draws);
    let check = state.both(&Call::Traffic)?;
    counts.call(check);
    let reports = &mut counts.traffic.reports;
    if check == 0 {
        reports.give(&traffic_of(state.report.front()));
    } else {
        reports.refuse(refusal(state));
    }
    Ok(check)
}

/// What a report of a state is refused for.
fn refusal(state: &State) -> Refusal {
    let few = state.report.front().len() < TRAFFIC_WORDS;
    match (state.decoded().map(|run| unsoundness(state, &run)), few) {
        (None, false) => Refusal::FewRunWords,
        (Some(None), _) => Refusal::FewReportWords,
        (Some(Some(refusal)), false) => refusal,
        _ => Refusal::Several,
    }
}

/// What makes a run unsound, if it is. Read as a run, a settled word above 1 is
/// one of 1.
fn unsoundness(state: &State, run: &Run) -> Option<Refusal> {
    let (tally, network) = (state.tally.front(), state.network.front());
    let no_run = state.run.front()[SETTLED] > 1;
    match (no_run, is_sound(run, tally, network)) {
        (false, true) => None,
        (true, true) => Some(Refusal::SettledWord),
        (true, false) => Some(Refusal::Several),
        (false, false) if is_sound_but_for_time(run, tally, network) => Some(Refusal::Late),
        (false, false) => Some(Refusal::Unsound),
    }
}

#[cfg(test)]
mod tests {
    use super::*;
    use crate::by_library::tests::counts_of;
    use crate::words::{HELD, RUN_WORDS, TIME};

    #[test]
    fn reports_are_given_and_refused() {
        let counts = counts_of(case, 61, 100);
        let reports = &counts.traffic.reports;
        assert_eq!(reports.library_lacks(5), None, "{counts}");
        assert!(reports.given > 500, "{counts}");
    }

    #[test]
    fn refusals_are_told_apart() {
        let mut draws = Draws::new(62);
        let good = states::played(&mut draws, 5).0;
        let limit = good.decoded().expect("all words").plan.clock_limit();
        let refused = |words: Vec<(usize, u64)>, run: usize, report: usize| {
            let mut state = good.clone();
            for (place, word) in words {
                state.run.front_mut()[place] = word;
            }
            state.run.lend(run);
            state.report = Lent::new(&vec![0; report], &[]);
            let check = state.refer(&Call::Traffic);
            (check, refusal(&state))
        };
        let (all, few) = (TRAFFIC_WORDS, TRAFFIC_WORDS - 1);
        let (settled, late, crowded) = ((SETTLED, 2), (TIME, limit), (HELD, 1 << 40));
        for (words, run, report, expected) in [
            (vec![], RUN_WORDS - 1, all, (1, Refusal::FewRunWords)),
            (vec![], RUN_WORDS, few, (1, Refusal::FewReportWords)),
            (vec![], RUN_WORDS - 1, few, (1, Refusal::Several)),
            (vec![late], RUN_WORDS, few, (1, Refusal::Several)),
            (vec![settled], RUN_WORDS, all, (9, Refusal::SettledWord)),
            (vec![late], RUN_WORDS, all, (9, Refusal::Late)),
            (vec![crowded], RUN_WORDS, all, (9, Refusal::Unsound)),
            (vec![settled, late], RUN_WORDS, all, (9, Refusal::Several)),
        ] {
            assert_eq!(refused(words, run, report), expected);
        }
    }
}
