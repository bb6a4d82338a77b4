//! What was met of runs carried over: from each form, into which targets, what
//! refused them; and of lists of events on networks of both forms.

mod lists;
mod ways;

pub use lists::Lists;
pub use ways::{Refusal, Target, Way};

use crate::stored::Width;
use std::fmt::{self, Display, Formatter};

/// Counts of runs carried over.
#[derive(Clone, Default, Debug)]
pub struct Carried {
    /// From four words a message to two.
    pub packed: Way,
    /// From two to four.
    pub unpacked: Way,
    /// On networks of both forms.
    pub lists: Lists,
}

impl Carried {
    /// The counts of those from a form.
    pub const fn way_from(&mut self, from: Width) -> &mut Way {
        match from {
            Width::Two => &mut self.unpacked,
            Width::Four => &mut self.packed,
        }
    }

    /// Adds the counts of another part.
    pub fn add(&mut self, other: &Self) {
        self.packed.add(&other.packed);
        self.unpacked.add(&other.unpacked);
        self.lists.add(&other.lists);
    }

    /// What was met less often of all that is counted.
    pub fn lacks(&self, least: u64) -> Option<String> {
        self.calls_lack(least).or_else(|| self.lists_lack(least))
    }

    /// What was met less often of calls.
    pub fn calls_lack(&self, least: u64) -> Option<String> {
        let ways = [("packed", &self.packed), ("unpacked", &self.unpacked)];
        ways.into_iter().find_map(|(way, counts)| {
            let mut named = counts.named();
            let (times, name) = named.find(|&(times, _)| times < least)?;
            Some(format!("{way}, {name}: {times}"))
        })
    }

    /// What was met less often of lists.
    pub fn lists_lack(&self, least: u64) -> Option<String> {
        let mut named = self.lists.named().into_iter();
        let (times, name) = named.find(|&(times, _)| times < least)?;
        Some(format!("both forms, {name}: {times}"))
    }
}

impl Display for Carried {
    fn fmt(&self, out: &mut Formatter) -> fmt::Result {
        // What was not met here may have been met in another part.
        let told = |named: &mut dyn Iterator<Item = (u64, String)>| {
            let named = named.filter(|&(times, _)| times > 0);
            let told: Vec<String> = named
                .map(|(times, name)| format!("{name} {times}"))
                .collect();
            told.join(", ")
        };
        for (way, counts) in [("packed", &self.packed), ("unpacked", &self.unpacked)] {
            if counts.calls > 0 {
                writeln!(out, "  {way}: {}", told(&mut counts.named()))?;
            }
        }
        if self.lists.opened > 0 {
            let named = self.lists.named();
            let mut named = named
                .into_iter()
                .map(|(times, name)| (times, name.to_owned()));
            writeln!(out, "  both forms: {}", told(&mut named))?;
        }
        Ok(())
    }
}

/// Adds counts place by place.
fn add(times: &mut [u64], more: &[u64]) {
    for (times, more) in times.iter_mut().zip(more) {
        *times += more;
    }
}

#[cfg(test)]
mod tests {
    use super::*;
    use crate::calls::State;
    use crate::clauses::{Clause, CLAUSES};
    use crate::lent::Lent;

    impl Carried {
        /// Counts of which each is so much.
        pub fn met_everywhere(times: u64) -> Self {
            let way = Way {
                calls: times,
                done: [times; 6],
                holding: [times; 6],
                back: times,
                few_run_words: times,
                refused: [times; 3],
                edges: [times; 4],
                behind: times,
                clauses: [times; 17],
                kinds: [times; 4],
            };
            let lists = Lists {
                opened: times,
                handed_in: times,
                refused: times,
                apart: times,
                events: times,
                full: [times; 3],
                carried: [times; 2],
            };
            Self {
                packed: way.clone(),
                unpacked: way,
                lists,
            }
        }
    }

    #[test]
    fn what_is_lacking_is_told() {
        let enough = Carried::met_everywhere(2);
        assert_eq!(enough.lacks(2), None);
        let lacks = |spoil: &dyn Fn(&mut Carried), told: &str| {
            let mut carried = enough.clone();
            spoil(&mut carried);
            assert_eq!(carried.lacks(2), Some(told.to_owned()));
        };
        lacks(&|carried| carried.packed.calls = 1, "packed, calls: 1");
        lacks(
            &|carried| carried.unpacked.back = 0,
            "unpacked, carried back: 0",
        );
        let told = "packed, filling the target: 1";
        lacks(&|carried| carried.packed.done[2] = 1, told);
        let told = "packed, holding one for view 4,096 or above: 0";
        lacks(&|carried| carried.packed.holding[4] = 0, told);
        let told = "unpacked, refused for one word too many: 1";
        lacks(&|carried| carried.unpacked.edges[3] = 1, told);
        let told = "unpacked, refused for a target too long: 1";
        lacks(&|carried| carried.unpacked.refused[1] = 1, told);
        let told = "unpacked, refused for a target beside an unsound run: 1";
        lacks(&|carried| carried.unpacked.behind = 1, told);
        lacks(
            &|carried| carried.unpacked.kinds[3] = 0,
            "unpacked, refused for kind 8: 0",
        );
        for (place, name) in CLAUSES.into_iter().enumerate() {
            let told = format!("packed, refused for {name}: 1");
            lacks(&|carried| carried.packed.clauses[place] = 1, &told);
        }
        lacks(&|carried| carried.lists.events = 0, "both forms, events: 0");
        let told = "both forms, ended by 18 in four words a message: 1";
        lacks(&|carried| carried.lists.full[1] = 1, told);
        lacks(
            &|carried| carried.lists.carried[0] = 1,
            "both forms, packed on the way: 1",
        );
    }

    /// A state of four processors that holds these messages in two words each,
    /// with a target of so many words.
    fn state(network: &[u64], target: usize) -> State {
        let held = network.len() as u64 / 2;
        State {
            run: Lent::new(&[4, 0, 0, 0, 0, 0, 0, 0, 0, held], &[]),
            network: Lent::new(network, &[]),
            target: Lent::new(&vec![0; target], &[]),
            ..State::default()
        }
    }

    #[test]
    fn calls_are_counted() {
        let mut way = Way::default();
        let mut carry = |network: &[u64], target| way.carry(Width::Two, &state(network, target));
        carry(&[], 32);
        carry(&[64, 0, 4_096 << 9, 0], 35);
        carry(&[63; 16], 33);
        carry(&[192, 0], 524_288);
        assert_eq!(way.done, [1, 3, 1, 1, 2, 1]);
        assert_eq!(way.holding, [2, 1, 0, 1, 1, 1]);
        let mut refuse = |refusal, network: &[u64], target| {
            way.refuse(&refusal, Width::Two, &state(network, target));
        };
        refuse(Refusal::FewRunWords, &[], 0);
        refuse(Refusal::Target(vec![Target::Long], false), &[], 524_289);
        refuse(Refusal::Target(vec![Target::Short], true), &[], 31);
        refuse(Refusal::Target(vec![Target::Short], false), &[], 31);
        refuse(Refusal::Target(vec![Target::Full], false), &[0; 20], 39);
        let both = vec![Target::Short, Target::Full];
        refuse(Refusal::Target(both, false), &[0; 20], 0);
        refuse(Refusal::Unsound(vec![Clause::Kind]), &[64, 0, 511, 0], 32);
        refuse(Refusal::Unsound(vec![Clause::Time, Clause::Sent]), &[], 32);
        assert_eq!((way.few_run_words, way.refused), (1, [1, 1, 1]));
        assert_eq!((way.edges, way.behind), ([1, 1, 1, 1], 1));
        assert_eq!(way.clauses[Clause::Kind as usize], 1);
        assert_eq!((way.clauses.iter().sum(), way.kinds), (1, [0, 0, 0, 1]));
        way.calls = 3;
        let mut carried = Carried {
            packed: way,
            ..Carried::default()
        };
        carried.add(&carried.clone());
        assert_eq!((carried.packed.calls, carried.packed.done[1]), (6, 6));
        let told = carried.to_string();
        assert!(told.starts_with("  packed: calls 6, refused for"), "{told}");
    }
}
