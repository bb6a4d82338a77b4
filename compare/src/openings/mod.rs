//! Setups: those that checks 2 to 8 pass, most of them at an edge of check 8,
//! and those that one of them refuses.

#[cfg(test)]
mod tests;

use crate::draws::Draws;
use crate::text::Heading;
use reference::{Plan, Setup};

/// The most ticks that a run of a drawn setup can last: the reference does
/// them one by one.
const MOST_TICKS: u64 = 400_000;

/// A setup that opens with lent words enough for so many views.
pub fn accepted(draws: &mut Draws, most_views: u64) -> Setup {
    let n = draws.one_of(&[
        4, 4, 4, 5, 6, 7, 7, 8, 10, 13, 16, 22, 31, 32, 33, 63, 64, 64,
    ]);
    let plan = plan(draws, n, most_views);
    accepted_of(draws, plan)
}

/// The views per leader of a plan: two and three more often than others.
pub fn per_leader(draws: &mut Draws) -> u64 {
    draws.one_of(&[2, 2, 3, 3, 3, 3, 3, 4, 5, 6, 7, 8])
}

/// The least view limit with so many views per leader.
const fn least_views(k: u64) -> u64 {
    if k == 2 {
        4
    } else {
        k
    }
}

/// A plan with so many views per leader: where they are two, of a slot of four
/// delays or more, and of a view limit that is a multiple, the next below if
/// there is one.
pub fn with_turns(plan: Plan, k: u64) -> Plan {
    let slot = if k == 2 { 4 * plan.delta } else { 0 };
    Plan {
        gamma: plan.gamma.max(slot),
        views: (plan.views - plan.views % k).max(least_views(k)),
        k,
        ..plan
    }
}

/// What the line of a setup says before its clocks: most often without k where
/// that is the same, so that a third of the openings are without.
pub fn heading(setup: &Setup, draws: &mut Draws) -> Heading {
    if setup.plan.k == Plan::VIEWS_PER_LEADER && draws.per_mille(800) {
        Heading::Five
    } else {
        Heading::Six
    }
}

/// A setup of this plan that opens.
pub fn accepted_of(draws: &mut Draws, plan: Plan) -> Setup {
    let faulty = faulty(draws, plan);
    let clocks = clocks(draws, plan, faulty);
    Setup {
        plan,
        faulty,
        clocks,
    }
}

/// A plan within its limits.
fn plan(draws: &mut Draws, n: u64, most_views: u64) -> Plan {
    let (delta, gamma) = draws.one_of(&[
        (1, 2),
        (1, 2),
        (2, 4),
        (2, 4),
        (1, 3),
        (2, 5),
        (3, 7),
        (1, 10),
        (5, 10),
        (5, 40),
        (50, 100),
        (1_000, 2_000),
        (1_000, 10_000),
        (1, 10_000),
    ]);
    let mut k = per_leader(draws);
    if least_views(k) > most_views {
        k = Plan::VIEWS_PER_LEADER;
    }
    let views = draws.one_of(&[3, 6, 9, 12, 30, 60, 90, 150, 300, 600, 900]);
    let plan = Plan {
        n,
        delta,
        gamma,
        views,
        k,
    };
    let plan = with_turns(plan, k);
    let most = (MOST_TICKS / plan.gamma).min(most_views);
    Plan {
        views: plan.views.min(most - most % k),
        ..plan
    }
}

/// The faulty processors: t of them or fewer, at the low end, the high end or
/// anywhere.
fn faulty(draws: &mut Draws, plan: Plan) -> u64 {
    let t = plan.tolerance();
    let fewer = draws.below(t + 1);
    let count = draws.one_of(&[t, t, t, fewer, 0]);
    match draws.below(3) {
        0 => (1 << count) - 1,
        1 if count > 0 => ((1 << count) - 1) << (plan.n - count),
        _ => some_of(draws, plan.n, count),
    }
}

/// So many of the numbers below n.
fn some_of(draws: &mut Draws, n: u64, count: u64) -> u64 {
    let mut set = 0_u64;
    while u64::from(set.count_ones()) < count {
        set |= 1 << draws.below(n);
    }
    set
}

/// Start clocks that checks 7 and 8 pass; those of faulty processors and from
/// n on, which are not read, are anything.
fn clocks(draws: &mut Draws, plan: Plan, faulty: u64) -> [u64; 64] {
    let (gamma, last) = (plan.gamma, plan.round() - 1);
    let mut clocks = [0; 64];
    match draws.below(6) {
        0 => {}
        1 => clocks.fill(draws.below(last + 1)),
        2 => {
            let top = draws.between(gamma, last);
            edge(draws, plan, faulty, top, &mut clocks);
        }
        3 => {
            // Just enough clocks at the top, the others anywhere below it.
            let top = draws.one_of(&[last, last, gamma]);
            clocks.fill_with(|| draws.below(top + 1));
            scatter(draws, plan, faulty, plan.view_signers(), &mut clocks, top);
        }
        4 => {
            let top = draws.between(gamma, last);
            clocks.fill_with(|| top - draws.below(gamma + 1));
        }
        _ => clocks.fill_with(|| last - draws.below(3)),
    }
    for (number, clock) in clocks.iter_mut().enumerate() {
        if number as u64 >= plan.n || faulty >> number & 1 == 1 {
            *clock = draws.edge();
        }
    }
    clocks
}

/// The very edge of check 8: one clock at the top, t clocks exactly `gamma`
/// behind it, and all others further behind.
fn edge(draws: &mut Draws, plan: Plan, faulty: u64, top: u64, clocks: &mut [u64; 64]) {
    let near = top - plan.gamma;
    let behind = draws.below(near + 1);
    clocks.fill(draws.one_of(&[0, behind, near.saturating_sub(1)]));
    let chosen = scatter(draws, plan, faulty, plan.view_signers(), clocks, near);
    clocks[chosen] = top;
}

/// Sets so many correct clocks, at random places, and answers one of them.
fn scatter(
    draws: &mut Draws,
    plan: Plan,
    faulty: u64,
    count: u64,
    clocks: &mut [u64; 64],
    value: u64,
) -> usize {
    let mut correct: Vec<usize> = (0..plan.n as usize)
        .filter(|number| faulty >> number & 1 == 0)
        .collect();
    let mut last = 0;
    for _ in 0..count {
        last = correct.swap_remove(draws.place(correct.len()));
        clocks[last] = value;
    }
    last
}

/// The setup whose line is the longest of all. Check 3 refuses it.
pub const fn longest() -> Setup {
    let plan = Plan {
        n: 64,
        delta: u64::MAX,
        gamma: u64::MAX,
        views: u64::MAX,
        k: u64::MAX,
    };
    Setup {
        plan,
        faulty: u64::MAX,
        clocks: [u64::MAX; 64],
    }
}

/// A setup that one of checks 2 to 8 refuses, most often by the least step
/// over its limit. `most_views` is what the lent words are enough for.
pub fn refused(draws: &mut Draws, most_views: u64) -> Setup {
    let mut setup = accepted(draws, most_views);
    let plan = &mut setup.plan;
    let any = draws.edge();
    match draws.between(2, 8) {
        2 => plan.n = draws.one_of(&[1, 2, 3, 3]),
        3 if draws.per_mille(500) => plan.delta = draws.one_of(&[0, 1_001, any.max(1_001)]),
        3 if draws.per_mille(500) => {
            plan.gamma = draws.one_of(&[2 * plan.delta - 1, 10_001, any.max(10_001)]);
        }
        3 => spoil_slot(draws, plan),
        4 if draws.per_mille(500) => {
            plan.views =
                draws.one_of(&[0, 1, 2, plan.views + 1, plan.views + 2, 6_001, 6_003, any]);
        }
        4 => spoil_turns(draws, plan),
        5 => spoil_faulty(draws, &mut setup),
        6 => {
            let more = most_views + plan.k;
            plan.views = draws.one_of(&[more - more % plan.k, 6_000 - 6_000 % plan.k]);
        }
        7 => spoil_clock(draws, &mut setup),
        _ => spoil_edge(draws, &mut setup),
    }
    setup
}

/// Two views per leader, and a slot of two delays or more, but not of four.
fn spoil_slot(draws: &mut Draws, plan: &mut Plan) {
    let least = 2 * plan.delta;
    let most = 4 * plan.delta - 1;
    let inside = draws.between(least, most);
    plan.k = 2;
    plan.gamma = draws.one_of(&[least, inside, most, most]);
}

/// Views per leader that there are not, of a limit that is a multiple if it can
/// be one; or such that the limit is none.
fn spoil_turns(draws: &mut Draws, plan: &mut Plan) {
    let (more, any) = (draws.between(10, 6_000), draws.edge());
    plan.k = draws.one_of(&[0, 1, 1, 9, 9, 9, more, any, u64::MAX, 4, 5, 7, 8]);
    plan.views = match plan.k {
        9 => draws.one_of(&[9, 90, 900, 5_994]),
        4 | 5 | 7 | 8 => draws.one_of(&[3, 6, 9, 18, 27, 6_000]),
        _ => plan.views,
    };
}

/// One faulty processor too many, or one that is none.
fn spoil_faulty(draws: &mut Draws, setup: &mut Setup) {
    let plan = setup.plan;
    setup.faulty = if plan.n < 64 && draws.per_mille(500) {
        1 << draws.one_of(&[plan.n, 63])
    } else {
        some_of(draws, plan.n, plan.view_signers())
    };
}

/// A correct start clock of k times `gamma` or more.
fn spoil_clock(draws: &mut Draws, setup: &mut Setup) {
    let (plan, faulty) = (setup.plan, setup.faulty);
    let least = plan.round();
    let value = draws.one_of(&[least, least + 1, u64::MAX]);
    scatter(draws, plan, faulty, 1, &mut setup.clocks, value);
}

/// The edge of check 8 with one clock too few near the top one.
fn spoil_edge(draws: &mut Draws, setup: &mut Setup) {
    let (plan, faulty) = (setup.plan, setup.faulty);
    let top = draws.between(plan.gamma + 1, plan.round() - 1);
    setup.clocks.fill(top - plan.gamma - 1);
    let near = top - plan.gamma;
    let signers = plan.tolerance();
    let chosen = scatter(draws, plan, faulty, signers, &mut setup.clocks, near);
    setup.clocks[chosen] = top;
}
