//! What faulty processors do: sign at the best or the worst moment, show
//! certificates to whom they like.

use crate::adversary;
use crate::draws::Draws;
use crate::scene::{Scene, Word};
use reference::{Event, Message};

/// How the faulty processors lie.
#[derive(Clone, Copy, Debug)]
pub enum Lies {
    /// Not at all: they are silent.
    None,
    /// They sign whatever they have not signed yet.
    Eager,
    /// They sign where that forms a certificate.
    Decisive,
    /// They sign where nothing can be formed any more.
    Late,
    /// They show certificates to one processor only.
    ToOne(u64),
    /// Any of these.
    Any,
}

/// The next lie, if there is one to be told.
pub fn pick(lies: Lies, scene: Scene, draws: &mut Draws) -> Option<Event> {
    match lies {
        Lies::None => None,
        Lies::Eager | Lies::Decisive | Lies::Late => signature(lies, scene, draws),
        Lies::ToOne(processor) => shown(scene, draws, processor),
        Lies::Any => {
            let to = adversary::correct(draws, scene.run.plan.n, scene.run.faulty);
            match draws.below(4) {
                0 => signature(Lies::Eager, scene, draws),
                1 => signature(Lies::Decisive, scene, draws),
                2 => signature(Lies::Late, scene, draws),
                _ => shown(scene, draws, to),
            }
        }
    }
}

/// The views worth a lie: those around the highest and the lowest present one.
fn views_at_hand(scene: Scene) -> Vec<u64> {
    let present = || scene.correct().map(|number| scene.view(number));
    let (Some(lowest), Some(highest)) = (present().min(), present().max()) else {
        return Vec::new();
    };
    // A turn ahead and behind, so that an initial view is among them.
    let (last, turn) = (scene.run.plan.views - 1, scene.run.plan.k);
    let mut views: Vec<u64> = (highest.saturating_sub(turn + 2)..=highest + turn + 1).collect();
    views.extend(lowest.saturating_sub(1)..=lowest + turn + 1);
    views.retain(|&view| view <= last);
    views.sort_unstable();
    views.dedup();
    views
}

/// A faulty processor's signature for a correct leader.
fn signature(lies: Lies, scene: Scene, draws: &mut Draws) -> Option<Event> {
    let faulty: Vec<u64> = scene.faulty().collect();
    if faulty.is_empty() {
        return None;
    }
    let mut choices = Vec::new();
    for view in views_at_hand(scene) {
        if scene.is_led_by_faulty(view) {
            continue;
        }
        let signer = draws.one_of(&faulty);
        if scene.run.plan.initial(view) {
            choices.push(Message::View(view, signer));
        }
        choices.push(Message::Vote(view, signer));
    }
    choices.retain(|&message| suits(lies, scene, message));
    (!choices.is_empty()).then(|| Event::Sign(draws.one_of(&choices)))
}

/// Whether signing this is a lie of that sort.
fn suits(lies: Lies, scene: Scene, message: Message) -> bool {
    let plan = scene.run.plan;
    let (view, signer) = (message.view(), message.processor());
    let (heard, signers, mark) = match message {
        Message::View(..) => (Word::ViewHeard, plan.view_signers(), 1),
        _ => (Word::VoteHeard, plan.quorum_signers(), 2),
    };
    let before = scene.tallied(view, heard);
    let after = before | 1 << signer;
    let formed = scene.tallied(view, Word::Marks) & mark != 0;
    let left = mark == 1 && scene.view(plan.lead(view)) > view;
    match lies {
        Lies::Decisive => u64::from(after.count_ones()) >= signers && !formed && !left,
        Lies::Late => formed || left,
        _ => before != after,
    }
}

/// The highest certificate there is that moves a processor, or now and then
/// any that there is.
fn shown(scene: Scene, draws: &mut Draws, processor: u64) -> Option<Event> {
    if scene.is_faulty(processor) || processor >= scene.run.plan.n {
        return None;
    }
    let present = scene.view(processor);
    let mut choices = Vec::new();
    for view in views_at_hand(scene) {
        if scene.run.plan.initial(view) {
            choices.push((Message::Vc(view, processor), view > present));
        }
        choices.push((Message::Qc(view, processor), view >= present));
    }
    choices.retain(|&(certificate, _)| scene.exists(certificate));
    if draws.per_mille(900) {
        choices.retain(|&(_, moves)| moves);
        return choices
            .last()
            .map(|&(certificate, _)| Event::Show(certificate));
    }
    (!choices.is_empty()).then(|| Event::Show(draws.one_of(&choices).0))
}

#[cfg(test)]
mod tests {
    use super::*;
    use reference::{apply, open, Answer, Plan, Run, Setup};

    #[test]
    fn a_decisive_signature_forms_a_certificate_and_a_late_one_none() {
        let plan = Plan {
            n: 4,
            delta: 2,
            gamma: 4,
            views: 6,
            k: 3,
        };
        let setup = Setup {
            plan,
            faulty: 8,
            clocks: [0; 64],
        };
        let (mut run, mut tally, mut network) = (Run::unopened(), vec![0; 24], vec![0; 64]);
        open(&setup, &mut run, &mut tally, &mut network);
        let mut draws = Draws::new(1);
        let mut lie = |lies, run: &Run, tally: &[u64], network: &[u64]| {
            let scene = Scene {
                run,
                tally,
                network,
            };
            pick(lies, scene, &mut draws)
        };
        assert_eq!(lie(Lies::None, &run, &tally, &network), None);
        assert_eq!(lie(Lies::Decisive, &run, &tally, &network), None);
        assert_eq!(lie(Lies::Late, &run, &tally, &network), None);
        let heard = Event::Deliver(Message::View(0, 1));
        apply(&mut run, heard, &mut tally, &mut network);
        let decisive = lie(Lies::Decisive, &run, &tally, &network).expect("one signature lacks");
        assert_eq!(decisive, Event::Sign(Message::View(0, 3)));
        let answer = apply(&mut run, decisive, &mut tally, &mut network);
        assert_eq!(answer, Answer::Done { ticks: 0, held: 8 });
        let late = lie(Lies::Late, &run, &tally, &network);
        assert_eq!(late, Some(Event::Sign(Message::View(0, 3))));
    }
}
