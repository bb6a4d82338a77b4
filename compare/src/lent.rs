//! Words and bytes lent to a call, with others behind them that are not.

use crate::draws::Draws;

/// A buffer of which only the front is lent.
#[derive(Clone, Default, PartialEq, Eq, Debug)]
pub struct Lent<T> {
    all: Vec<T>,
    lent: usize,
}

impl<T: Copy> Lent<T> {
    /// Lends these, and keeps those behind them.
    pub fn new(front: &[T], behind: &[T]) -> Self {
        Self {
            all: [front, behind].concat(),
            lent: front.len(),
        }
    }

    /// What is lent.
    pub fn front(&self) -> &[T] {
        &self.all[..self.lent]
    }

    /// What is lent, to be altered.
    pub fn front_mut(&mut self) -> &mut [T] {
        &mut self.all[..self.lent]
    }

    /// What is lent and what is not: none of the latter may change.
    pub fn all(&self) -> &[T] {
        &self.all
    }

    /// Lends this many from now on, as far as there are any.
    pub fn lend(&mut self, length: usize) {
        self.lent = length.min(self.all.len());
    }
}

impl Lent<u64> {
    /// Words that no call has touched yet: zeros, or anything.
    pub fn untouched(length: usize, draws: &mut Draws) -> Self {
        let wild = draws.per_mille(700);
        let mut words = vec![0; length + 5];
        if wild {
            words.fill_with(|| draws.any());
        }
        Self {
            all: words,
            lent: length,
        }
    }
}

#[cfg(test)]
mod tests {
    use super::*;

    #[test]
    fn only_the_front_is_lent() {
        let mut lent = Lent::new(&[1, 2], &[3, 4]);
        lent.front_mut().fill(9);
        assert_eq!((lent.front(), lent.all()), (&[9, 9][..], &[9, 9, 3, 4][..]));
        lent.lend(3);
        assert_eq!(lent.front(), [9, 9, 3]);
        lent.lend(50);
        assert_eq!(lent.front().len(), 4);
        assert_eq!(Lent::untouched(7, &mut Draws::new(1)).front().len(), 7);
    }
}
