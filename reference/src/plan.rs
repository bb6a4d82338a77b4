//! The plan of a run, and what belongs to it: leader, initial views, clock
//! times and the counts of signers a certificate takes. A plan handed in may
//! have any numbers; each function answers for all of them.

/// The quantities fixed for a whole run.
#[derive(Clone, Copy, PartialEq, Eq, Debug)]
pub struct Plan {
    /// n, the number of processors: "4 to 64, numbered from 0".
    pub n: u64,
    /// The delay: "1 to 1,000 ticks".
    pub delta: u64,
    /// The slot: "at least" 4 `delta` "for k=2," 2 `delta` "otherwise", and at
    /// most 10,000 ticks.
    pub gamma: u64,
    /// The view limit: 3 to 6,000, a multiple of k. "Views are 0 to
    /// `views` − 1."
    pub views: u64,
    /// "k, the views per leader, 2 to 8".
    pub k: u64,
}

impl Plan {
    /// The views per leader of a line that does not say them: "any opening
    /// line without it is read as k=3".
    pub const VIEWS_PER_LEADER: u64 = 3;

    /// "t = (n−1)/3 rounded down", and 0 for no processors at all.
    pub const fn tolerance(self) -> u64 {
        self.n.saturating_sub(1) / 3
    }

    /// The signers of a view certificate: t+1.
    pub const fn view_signers(self) -> u64 {
        self.tolerance() + 1
    }

    /// The signers of a quorum certificate: n−t.
    pub const fn quorum_signers(self) -> u64 {
        self.n - self.tolerance()
    }

    /// Processor (w/k rounded down) mod n leads view w. It is 0 for no
    /// processors at all, and for no views per leader.
    pub const fn lead(self, view: u64) -> u64 {
        let Some(turn) = view.checked_div(self.k) else {
            return 0;
        };
        match turn.checked_rem(self.n) {
            Some(leader) => leader,
            None => 0,
        }
    }

    /// A view divisible by k is initial; view 0 alone, if k is 0.
    pub const fn initial(self, view: u64) -> bool {
        view.is_multiple_of(self.k)
    }

    /// The least initial view above a view, or 2^64−1 if that is less; 0, if k
    /// is 0.
    pub const fn next_initial(self, view: u64) -> u64 {
        match view.checked_rem(self.k) {
            Some(into) => (view - into).saturating_add(self.k),
            None => 0,
        }
    }

    /// "its clock time is w times `gamma`", or 2^64−1 if that is less.
    pub const fn clock_time(self, view: u64) -> u64 {
        view.saturating_mul(self.gamma)
    }

    /// The clock that no correct processor may reach: `views` times `gamma`,
    /// or 2^64−1 if that is less.
    pub const fn clock_limit(self) -> u64 {
        self.clock_time(self.views)
    }

    /// The ticks from one initial view's clock time to the next one's, which
    /// are "the limit on start clocks": k times `gamma`, or 2^64−1 if that is
    /// less.
    pub const fn round(self) -> u64 {
        self.clock_time(self.k)
    }

    /// The ticks since settling beyond which the second sentence of demand 3
    /// is due, with so many faulty processors: k(f+1) `gamma` + `gamma` +
    /// 4 `delta`, or 2^64−1 if that is less.
    pub const fn settling_bound(self, faults: u64) -> u64 {
        self.round()
            .saturating_mul(faults + 1)
            .saturating_add(self.gamma)
            .saturating_add(self.delta.saturating_mul(4))
    }
}
