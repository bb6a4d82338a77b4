//! Drawn numbers, the same for the same seed on every machine.

/// A source of drawn numbers.
#[derive(Clone, Debug)]
pub struct Draws {
    state: u64,
}

impl Draws {
    /// The source that a seed stands for.
    pub const fn new(seed: u64) -> Self {
        Self { state: seed }
    }

    /// Any number.
    pub const fn any(&mut self) -> u64 {
        self.state = self.state.wrapping_add(0x9E37_79B9_7F4A_7C15);
        let mut mixed = self.state;
        mixed = (mixed ^ (mixed >> 30)).wrapping_mul(0xBF58_476D_1CE4_E5B9);
        mixed = (mixed ^ (mixed >> 27)).wrapping_mul(0x94D0_49BB_1331_11EB);
        mixed ^ (mixed >> 31)
    }

    /// A number below a bound, and 0 for the bound 0.
    pub const fn below(&mut self, bound: u64) -> u64 {
        match self.any().checked_rem(bound) {
            Some(number) => number,
            None => 0,
        }
    }

    /// A number from `least` to `most`, both among them.
    pub const fn between(&mut self, least: u64, most: u64) -> u64 {
        least + self.below(most - least + 1)
    }

    /// A place in a list of so many, and 0 for an empty one.
    pub const fn place(&mut self, length: usize) -> usize {
        self.below(length as u64) as usize
    }

    /// Whether a share of so many in a thousand is drawn.
    pub const fn per_mille(&mut self, share: u64) -> bool {
        self.below(1_000) < share
    }

    /// One of these; there is at least one.
    pub fn one_of<T: Copy>(&mut self, choices: &[T]) -> T {
        choices[self.place(choices.len())]
    }

    /// A source of its own, so that how much one case draws does not move the
    /// next.
    pub const fn branch(&mut self) -> Self {
        Self::new(self.any())
    }

    /// A number near one of the edges that document 01 names, or any.
    pub fn edge(&mut self) -> u64 {
        let small = self.below(40);
        let near = self.one_of(&[
            64,
            512,
            900,
            1_000,
            2_048,
            3_600,
            6_000,
            10_000,
            524_288,
            60_000_000,
            1 << 32,
            1 << 62,
            1 << 63,
        ]);
        let wide = self.any() >> self.below(64);
        self.one_of(&[
            0,
            1,
            small,
            small,
            near - 1,
            near,
            near + 1,
            wide,
            u64::MAX - small % 3,
        ])
    }
}

#[cfg(test)]
mod tests {
    use super::Draws;

    #[test]
    fn the_same_seed_draws_the_same() {
        let (mut one, mut other) = (Draws::new(7), Draws::new(7));
        assert!((0..100).all(|_| one.any() == other.any()));
    }

    #[test]
    fn numbers_stay_in_their_bounds() {
        let mut draws = Draws::new(1);
        assert!((1..500).all(|bound| draws.below(bound) < bound));
        assert!((0..500).all(|_| (3..=5).contains(&draws.between(3, 5))));
        assert_eq!(draws.below(0), 0);
        assert!((0..500).any(|_| draws.per_mille(500)));
        assert!(!(0..500).any(|_| draws.per_mille(0)));
    }
}
