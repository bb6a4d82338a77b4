//! One processor's step, on any plan, record and input.

use crate::counts::Counts;
use crate::difference::{told, Difference};
use crate::draws::Draws;
use crate::lent::Lent;
use crate::openings;
use crate::reference_calls::{self, guarded};
use crate::wild;
use fever::raw;
use reference::Plan;

/// One step.
pub fn case(draws: &mut Draws, counts: &mut Counts) -> Result<(), Difference> {
    let mut plan = openings::accepted(draws, 6_000).plan;
    let any = draws.edge();
    match draws.below(30) {
        0 => plan.n = any,
        1 => plan.delta = any,
        2 => plan.gamma = any,
        3 => plan.views = any,
        4 => plan.k = draws.one_of(&[0, 1, 2, 9, any, any]),
        5 => plan.gamma = draws.one_of(&[2 * plan.delta, 4 * plan.delta - 1, 4 * plan.delta]),
        _ => {}
    }
    let record = record(plan, draws);
    let length = match draws.below(40) {
        0 => draws.place(4),
        1 => 5,
        _ => 4,
    };
    let behind = [draws.any(), draws.any()];
    let mut before = Lent::new(&record, &behind);
    before.lend(length);
    let input = draws.one_of(&[0, 0, 0, 3, 3, 4, 4, 4, 4]);
    let input = if draws.per_mille(20) {
        draws.one_of(&[1, 2, 5, any])
    } else {
        input
    };
    let view = view(plan, record[2], draws);
    both(plan, &before, input, view, counts)
}

/// Makes both calls.
fn both(
    plan: Plan,
    before: &Lent<u64>,
    input: u64,
    view: u64,
    counts: &mut Counts,
) -> Result<(), Difference> {
    let Plan {
        n,
        delta,
        gamma,
        views,
        k,
    } = plan;
    let (mut proved, mut expected) = (before.clone(), before.clone());
    let answer = raw::step(n, delta, gamma, views, k, proved.front_mut(), input, view);
    let reference = guarded(|| reference_calls::step(plan, expected.front_mut(), input, view));
    counts.call(answer);
    counts.turns.step(plan, answer);
    let kept = answer == 0 || *before == expected;
    if Some(answer) == reference && proved == expected && kept {
        return Ok(());
    }
    Err(Difference {
        what: format!(
            "one processor's step differs\nproved: {answer} {:?}\nreference: {} {:?}",
            proved.all(),
            told(reference),
            expected.all()
        ),
        name: "difference.step".to_owned(),
        contents: format!(
            "n {n}, delta {delta}, gamma {gamma}, views {views}, k {k}\n\
             {} words lent of {:?}\ninput {input}, view {view}\n",
            before.front().len(),
            before.all()
        )
        .into_bytes(),
    })
}

/// A processor's number, clock and view, the clock most often at an edge of
/// what the view allows, and any word for what it sends.
fn record(plan: Plan, draws: &mut Draws) -> [u64; 4] {
    let any = draws.edge();
    let mut number = draws.below(plan.n);
    if draws.per_mille(60) {
        number = draws.one_of(&[plan.n, any]);
    }
    let last = plan.views.wrapping_sub(1);
    let some = draws.below(plan.views);
    let low = draws.below(4);
    let high = last.saturating_sub(draws.below(6));
    let mut view = draws.one_of(&[some, some, low, last, high]);
    if draws.per_mille(60) {
        view = draws.one_of(&[plan.views, any, some.wrapping_add(1 << 63), u64::MAX]);
    }
    let least = plan.clock_time(view);
    let next = plan.clock_time(plan.next_initial(view));
    let within = least.saturating_add(draws.below(plan.round()));
    let before = next.saturating_sub(1);
    let mut clock = draws.one_of(&[least, least, before, before, next.saturating_sub(2), within]);
    if draws.per_mille(80) {
        let limit = plan.clock_limit();
        clock = draws.one_of(&[
            least.wrapping_sub(1),
            next,
            limit,
            limit.wrapping_sub(1),
            any,
        ]);
    }
    [number, clock, view, draws.any()]
}

/// A certificate's view, near the present one or at an edge.
fn view(plan: Plan, present: u64, draws: &mut Draws) -> u64 {
    let some = draws.below(plan.views);
    if draws.per_mille(100) {
        let any = draws.edge();
        return draws.one_of(&[plan.views, plan.views.wrapping_add(2), any]);
    }
    let turn = plan.k.min(8);
    let near = present.saturating_add(draws.below(2 * turn + 2));
    let near = near.saturating_sub(turn);
    let next = plan.next_initial(present);
    let last = plan.views.wrapping_sub(1);
    let (nearby, initial) = (wild::initial(plan, near), wild::initial(plan, some));
    let view = draws.one_of(&[near, near, nearby, next, some, initial, last]);
    if view < plan.views {
        view
    } else {
        some
    }
}
