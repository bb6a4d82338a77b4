//! Messages as they stand in the words of a network: two words each, and four
//! in the wide form.

/// Kind, view, processor and sending time.
pub type Fields = [u64; 4];

/// How many words a message takes.
#[derive(Clone, Copy, PartialEq, Eq, Debug)]
pub enum Width {
    /// "view × 512 + (kind − 1) × 64 + processor, then the sending time."
    Two,
    /// Kind, view, processor, sending time.
    Four,
}

impl Width {
    /// The other form.
    pub const fn other(self) -> Self {
        match self {
            Self::Two => Self::Four,
            Self::Four => Self::Two,
        }
    }

    /// The words of a message.
    pub const fn words(self) -> usize {
        match self {
            Self::Two => 2,
            Self::Four => 4,
        }
    }

    /// The least words of a network for each processor: check 6.
    pub const fn least(self) -> u64 {
        match self {
            Self::Two => 4,
            Self::Four => 8,
        }
    }

    /// The message of its words.
    pub const fn fields(self, words: &[u64]) -> Fields {
        match self {
            Self::Two => fields([words[0], words[1]]),
            Self::Four => [words[0], words[1], words[2], words[3]],
        }
    }

    /// Writes a message over its words.
    pub fn put(self, fields: Fields, words: &mut [u64]) {
        match self {
            Self::Two => words[..2].copy_from_slice(&pair(fields)),
            Self::Four => words[..4].copy_from_slice(&fields),
        }
    }

    /// The first messages of a network, so many or as many as there are.
    pub fn messages(
        self,
        network: &[u64],
        held: u64,
    ) -> impl ExactSizeIterator<Item = Fields> + Clone + '_ {
        let places = network.chunks_exact(self.words()).take(held as usize);
        places.map(move |words| self.fields(words))
    }

    /// So many words that hold these messages, and zeros behind them; there is
    /// room for all.
    pub fn network(self, messages: impl Iterator<Item = Fields>, words: usize) -> Vec<u64> {
        let mut network = vec![0; words];
        let places = network.chunks_exact_mut(self.words());
        for (place, fields) in places.zip(messages) {
            self.put(fields, place);
        }
        network
    }
}

/// What two words say.
pub const fn fields([name, sent]: [u64; 2]) -> Fields {
    [(name >> 6 & 7) + 1, name >> 9, name & 63, sent]
}

/// The two words of a message; of what is out of range, as far as it goes.
pub const fn pair([kind, view, processor, sent]: Fields) -> [u64; 2] {
    let name = (view << 9).wrapping_add(kind.wrapping_sub(1) << 6);
    [name.wrapping_add(processor), sent]
}

#[cfg(test)]
mod tests {
    use super::*;
    use crate::draws::Draws;

    #[test]
    fn two_words_say_what_four_say() {
        for (words, four) in [
            ([0, 0], [1, 0, 0, 0]),
            ([3_071_743, 7], [4, 5_999, 63, 7]),
            ([1_600, 9], [2, 3, 0, 9]),
            ([256, 9], [5, 0, 0, 9]),
            ([511, u64::MAX], [8, 0, 63, u64::MAX]),
            ([u64::MAX, 1], [8, (1 << 55) - 1, 63, 1]),
        ] {
            assert_eq!((fields(words), pair(four)), (four, words));
            let messages = Width::Four.messages(&four, 5);
            assert_eq!(Width::Two.network(messages, 3)[..2], words);
        }
    }

    #[test]
    fn any_word_is_one_of_fields() {
        let mut draws = Draws::new(31);
        for _ in 0..1_000 {
            let words = [draws.edge(), draws.any()];
            assert_eq!(pair(fields(words)), words);
        }
    }

    #[test]
    fn only_whole_messages_are_read() {
        let words: Vec<u64> = (0..11).collect();
        let two: Vec<Fields> = Width::Two.messages(&words, u64::MAX).collect();
        assert_eq!((two.len(), two[4]), (5, [1, 0, 8, 9]));
        assert_eq!(Width::Four.messages(&words, 9).len(), 2);
        assert_eq!(Width::Four.messages(&words, 1).len(), 1);
        assert_eq!(Width::Four.network(two.into_iter(), 23).len(), 23);
    }
}
