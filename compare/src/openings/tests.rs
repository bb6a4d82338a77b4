//! Setups that open, and those that each check refuses.

use super::*;
use crate::turn_counts::Turns;
use reference::{open, Answer, Run};

fn answer(setup: &Setup) -> Answer {
    let (mut tally, mut network) = (vec![0; 3_600], vec![0; 2_048]);
    open(setup, &mut Run::unopened(), &mut tally, &mut network)
}

#[test]
fn accepted_ones_open() {
    let mut draws = Draws::new(1);
    for _ in 0..3_000 {
        let setup = accepted(&mut draws, 900);
        let opened = answer(&setup);
        assert!(
            matches!(opened, Answer::Done { .. }),
            "{opened:?} {setup:?}"
        );
    }
    let few = accepted(&mut draws, 3);
    assert_eq!((few.plan.views, few.plan.k), (3, 3));
}

#[test]
fn a_third_of_the_lines_are_without_k() {
    let mut draws = Draws::new(3);
    let mut without = 0;
    let mut per_leader = [0; 9];
    for _ in 0..3_000 {
        let setup = accepted(&mut draws, 900);
        per_leader[setup.plan.k as usize] += 1;
        let heading = heading(&setup, &mut draws);
        assert!(heading == Heading::Six || setup.plan.k == 3);
        without += u64::from(heading == Heading::Five);
    }
    assert!((900..1_100).contains(&without), "{without}");
    assert!(per_leader[2..].iter().all(|&times| times > 150));
}

#[test]
fn refused_ones_meet_every_check_of_an_opening() {
    let mut draws = Draws::new(2);
    let (mut met, mut turns) = ([0; 19], Turns::default());
    for _ in 0..3_000 {
        let setup = refused(&mut draws, 900);
        if let Answer::Refused(check) = answer(&setup) {
            met[check as usize] += 1;
            turns.opening(&setup, check);
        }
    }
    assert!(met[2..=8].iter().all(|&times| times > 100), "{met:?}");
    assert_eq!(turns.refusals_lack(5), None);
    assert_eq!(answer(&longest()), Answer::Refused(3));
}
