//! Events with any fields: most of them refused, the share of each check
//! large enough to be met.

use crate::draws::Draws;
use crate::scene::Scene;
use reference::{Event, Message, Plan};

/// The initial view at or below a view; the view itself, if k is 0.
pub const fn initial(plan: Plan, view: u64) -> u64 {
    match view.checked_rem(plan.k) {
        Some(into) => view - into,
        None => view,
    }
}

/// A view at or near an edge of a plan.
pub fn view(plan: Plan, draws: &mut Draws) -> u64 {
    let inside = draws.below(plan.views);
    let any = draws.edge();
    let last = plan.views.wrapping_sub(1);
    draws.one_of(&[
        0,
        plan.k,
        inside,
        inside,
        initial(plan, inside),
        last,
        plan.views,
        plan.views.wrapping_add(plan.k),
        any,
    ])
}

/// A processor at or near an edge of a plan.
pub fn processor(plan: Plan, draws: &mut Draws) -> u64 {
    let inside = draws.below(plan.n);
    let any = draws.edge();
    draws.one_of(&[
        0,
        inside,
        inside,
        inside,
        plan.n.wrapping_sub(1),
        plan.n,
        63,
        64,
        any,
    ])
}

/// A message of any kind.
pub fn message(plan: Plan, draws: &mut Draws) -> Message {
    let (view, processor) = (view(plan, draws), processor(plan, draws));
    draws.one_of(&[
        Message::View(view, processor),
        Message::Vote(view, processor),
        Message::Vc(view, processor),
        Message::Qc(view, processor),
    ])
}

/// An event of any form with any fields.
pub fn event(plan: Plan, draws: &mut Draws) -> Event {
    let message = message(plan, draws);
    let ticks = draws.below(4);
    let far = draws.edge();
    draws.one_of(&[
        Event::Deliver(message),
        Event::Deliver(message),
        Event::Sign(message),
        Event::Sign(message),
        Event::Show(message),
        Event::Show(message),
        Event::Settle,
        Event::Tick(ticks),
        Event::Tick(far),
    ])
}

/// An event close to one that is accepted: a held message with one field
/// moved, or the same message in another form.
pub fn near_miss(scene: Scene, draws: &mut Draws) -> Event {
    let plan = scene.run.plan;
    let place = draws.place(scene.messages().len());
    let held = match scene.message(place) {
        Some(held) => held,
        None => message(plan, draws),
    };
    let (view, processor) = (held.view(), held.processor());
    let moved = match draws.below(6) {
        0 => with(held, view.wrapping_add(1), processor),
        1 => with(held, view.saturating_sub(1), processor),
        2 => with(held, view, processor.wrapping_add(1)),
        3 => with(held, processor, view),
        4 => message(plan, draws),
        _ => held,
    };
    draws.one_of(&[
        Event::Deliver(moved),
        Event::Deliver(moved),
        Event::Sign(moved),
        Event::Show(moved),
    ])
}

/// The same kind with another view and processor.
const fn with(message: Message, view: u64, processor: u64) -> Message {
    match message {
        Message::View(..) => Message::View(view, processor),
        Message::Vote(..) => Message::Vote(view, processor),
        Message::Vc(..) => Message::Vc(view, processor),
        Message::Qc(..) => Message::Qc(view, processor),
    }
}
