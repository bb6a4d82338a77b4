//! Spoiling one thing of a sound state: everything that check 9 names, and
//! words that no rule is about.

use super::sums;
use crate::calls::State;
use crate::draws::Draws;
use crate::stored::Width;
use crate::wild;
use crate::words::{CLOCKS, FAULTY, GST, HELD, PER_LEADER, RUN_WORDS, SENT, SETTLED, TIME, VIEWS};
use reference::Run;

/// Changes one thing of a state whose run was this one while it was sound.
pub fn spoil(state: &mut State, good: &Run, draws: &mut Draws) {
    spoil_in(Width::Two, state, good, draws);
}

/// The same, with a network in which a message takes that many words.
pub fn spoil_in(width: Width, state: &mut State, good: &Run, draws: &mut Draws) {
    match draws.below(11) {
        0 | 1 => put(state, plan(good, draws)),
        2 => put(state, times(width, state, good, draws)),
        3 => put(state, clock(good, draws)),
        4 | 5 => put(state, view(good, draws)),
        6 | 7 => message(width, state, good, draws),
        8 => lend_less(width, state, good, draws),
        9 => put(state, sum(draws)),
        _ => {
            let (place, value) = (draws.place(state.tally.front().len()), draws.any());
            if let Some(word) = state.tally.front_mut().get_mut(place) {
                *word = value;
            }
        }
    }
}

/// Changes one word of the run, if it is lent.
fn put(state: &mut State, (place, value): (usize, u64)) {
    if let Some(word) = state.run.front_mut().get_mut(place) {
        *word = value;
    }
}

/// The plan or the faulty processors.
fn plan(good: &Run, draws: &mut Draws) -> (usize, u64) {
    let plan = good.plan;
    let any = draws.edge();
    let wraps = (1 << 63) + draws.below(8);
    let place = draws.place(FAULTY + 1);
    let value = match place {
        0 => draws.one_of(&[0, 3, plan.n - 1, plan.n + 1, 64, 65, any]),
        1 => draws.one_of(&[0, 1, 1_000, 1_001, plan.gamma / 2 + 1, wraps, any]),
        2 => {
            let (two, four) = (2 * plan.delta, 4 * plan.delta);
            draws.one_of(&[0, two - 1, four - 1, plan.gamma + 1, 10_001, wraps, any])
        }
        3 => draws.one_of(&[
            0,
            1,
            plan.views + 1,
            plan.views + plan.k,
            6_000,
            6_003,
            wraps,
            any,
        ]),
        PER_LEADER => {
            let (other, far) = (draws.between(2, 8), plan.k + (1 << 32));
            draws.one_of(&[0, 1, 1, 9, 9, other, other, far, wraps, u64::MAX, any])
        }
        _ => {
            let more = good.faulty | 1 << draws.below(64);
            let fewer = good.faulty & good.faulty.wrapping_sub(1);
            let next = 1_u64.checked_shl(plan.n as u32).unwrap_or(0);
            draws.one_of(&[more, more, fewer, next, u64::MAX, any])
        }
    };
    (place, value)
}

/// The time, whether and when it settled, how many messages are held.
fn times(width: Width, state: &State, good: &Run, draws: &mut Draws) -> (usize, u64) {
    let limit = good.plan.clock_limit();
    let fit = (state.network.front().len() / width.words()) as u64;
    let any = draws.edge();
    let place = draws.between(TIME as u64, HELD as u64) as usize;
    let value = match place {
        TIME => draws.one_of(&[0, limit - 1, limit, good.gst.wrapping_sub(1), u64::MAX, any]),
        SETTLED => draws.one_of(&[u64::from(!good.settled), 2, 3, 1 << 32, u64::MAX]),
        GST => draws.one_of(&[0, 1, good.time, good.time + 1, u64::MAX, any]),
        _ => {
            let fewer = good.held.wrapping_sub(1);
            // Two or four words each, these many would wrap to few.
            let wraps = (1 << draws.between(62, 63)) + draws.below(4);
            let more = good.held + 1;
            draws.one_of(&[more, fewer, 0, fit, fit + 1, wraps, 1 << 61, u64::MAX, any])
        }
    };
    (place, value)
}

/// A processor, most often one of the run's.
fn number(good: &Run, draws: &mut Draws) -> usize {
    let n = good.plan.n as usize;
    let (inside, any) = (draws.place(n), draws.place(64));
    draws.one_of(&[0, n - 1, inside, inside, inside, any])
}

/// A clock, at an edge of what the view allows.
fn clock(good: &Run, draws: &mut Draws) -> (usize, u64) {
    let plan = good.plan;
    let number = number(good, draws);
    let view = good.views[number];
    let least = plan.clock_time(view);
    let next = plan.clock_time(plan.next_initial(view));
    let limit = plan.clock_limit();
    let any = draws.edge();
    let below = least.wrapping_sub(1);
    let value = draws.one_of(&[
        least,
        below,
        next - 1,
        next,
        limit - 1,
        limit,
        u64::MAX,
        any,
    ]);
    (CLOCKS + number, value)
}

/// A view, at an edge of what the clock allows.
fn view(good: &Run, draws: &mut Draws) -> (usize, u64) {
    let plan = good.plan;
    let number = number(good, draws);
    let view = good.views[number];
    let at = good.clocks[number] / plan.gamma;
    let any = draws.edge();
    // A view whose clock time, cut to 64 bits, is that of the present one.
    let wraps = view.wrapping_add(1 << draws.between(60, 63));
    let value = draws.one_of(&[
        view.wrapping_sub(1),
        view.wrapping_add(1),
        plan.next_initial(view),
        at,
        wild::initial(plan, at),
        plan.views,
        wraps,
        u64::MAX,
        any,
    ]);
    (VIEWS + number, value)
}

/// A sum, of which no check speaks.
fn sum(draws: &mut Draws) -> (usize, u64) {
    let place = SENT + draws.place(RUN_WORDS - SENT);
    (place, sums::one(draws))
}

/// A held message, or a word behind the last.
fn message(width: Width, state: &mut State, good: &Run, draws: &mut Draws) {
    let any = draws.edge();
    let words = state.network.front_mut();
    let whole = words.len() - words.len() % width.words();
    let used = (good.held as usize * width.words()).min(whole);
    if used == 0 || draws.per_mille(250) {
        let behind = words.len() - used;
        let some = draws.place(behind);
        let place = draws.one_of(&[0, behind.saturating_sub(1), some]);
        if let Some(word) = words.get_mut(used + place) {
            *word = draws.one_of(&[0, 1, 3, any]);
        }
        return;
    }
    let place = draws.place(used / width.words()) * width.words();
    let stored = &mut words[place..place + width.words()];
    if draws.per_mille(150) {
        let bit = draws.below(64);
        let word = &mut stored[draws.place(width.words())];
        *word = draws.one_of(&[any, *word ^ 1 << bit, *word ^ 1 << (bit % 16)]);
        return;
    }
    let mut fields = width.fields(stored);
    let field = draws.place(4);
    fields[field] = out_of_range(width, field, good, draws);
    width.put(fields, stored);
}

/// Another kind, view, processor or sending time of a held message: most of
/// them at an edge of their range. Two words have kinds 1 to 8 and processors
/// 0 to 63 only.
fn out_of_range(width: Width, field: usize, good: &Run, draws: &mut Draws) -> u64 {
    let plan = good.plan;
    let any = draws.edge();
    match field {
        0 => {
            let other = draws.one_of(&[0, 9, 1 << 32, any]);
            let kind = draws.one_of(&[1, 2, 3, 4, 5, 6, 7, 8, other]);
            if let Width::Two = width {
                kind.clamp(1, 8)
            } else {
                kind
            }
        }
        1 => {
            let inside = draws.below(plan.views);
            let wraps = (1 << draws.between(50, 55)) + inside;
            draws.one_of(&[inside, plan.views - 1, plan.views, plan.views, wraps, any])
        }
        2 => {
            let inside = draws.below(plan.n);
            let faulty = u64::from(good.faulty.trailing_zeros());
            let processor = draws.one_of(&[inside, faulty, faulty, plan.n, plan.n, 64, any]);
            if let Width::Two = width {
                processor.min(63)
            } else {
                processor
            }
        }
        _ => draws.one_of(&[0, good.time, good.time + 1, u64::MAX, any]),
    }
}

/// Fewer words of one buffer, or a few that were behind it.
fn lend_less(width: Width, state: &mut State, good: &Run, draws: &mut Draws) {
    let (tally, network) = (4 * good.plan.views, width.least() * good.plan.n);
    let (tally, network) = (tally as usize, network as usize);
    match draws.below(3) {
        0 => {
            let all = RUN_WORDS;
            let length = draws.one_of(&[0, 1, CLOCKS, VIEWS, SENT, all - 1, all, all + 1]);
            state.run.lend(length);
        }
        1 => {
            let any = draws.place(tally + 2);
            let length = draws.one_of(&[0, any, tally - 1, tally - 4, tally, tally + 1]);
            state.tally.lend(length);
        }
        _ => {
            let all = state.network.front().len();
            let any = draws.place(all);
            let few = draws.one_of(&[0, 3, any]);
            let length = draws.one_of(&[few, network - 1, network, network + 1, all + 1]);
            state.network.lend(length);
        }
    }
}

/// Takes away what makes words those of a run: that they are enough, or that
/// the settled word is 0 or 1, or both.
pub fn unmake(state: &mut State, draws: &mut Draws) {
    let which = draws.below(3);
    if let (0 | 1, Some(settled)) = (which, state.run.front_mut().get_mut(SETTLED)) {
        *settled = draws.one_of(&[2, 3, 1 << 32, u64::MAX]);
    }
    if let 1 | 2 = which {
        state
            .run
            .lend(draws.one_of(&[0, SETTLED, SETTLED + 1, VIEWS, SENT, RUN_WORDS - 1]));
    }
}
