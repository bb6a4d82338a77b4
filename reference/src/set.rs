//! Sets of processors: "Signers are kept as a 64-bit set and counted as its
//! ones".

/// The numbers below n, all 64 of them for any n from 64.
pub(crate) const fn below(n: u64) -> u64 {
    if n < 64 {
        (1 << n) - 1
    } else {
        u64::MAX
    }
}

/// Whether a number stands in a set; none from 64 on does.
pub(crate) const fn holds(set: u64, processor: u64) -> bool {
    processor < 64 && (set >> processor) & 1 == 1
}

/// The set of one number below 64.
pub(crate) const fn only(processor: u64) -> u64 {
    1 << (processor & 63)
}

/// The ones of a set.
pub(crate) const fn size(set: u64) -> u64 {
    set.count_ones() as u64
}

/// The members of a set, by rising number.
pub(crate) fn members(mut set: u64) -> impl Iterator<Item = u64> {
    std::iter::from_fn(move || {
        if set == 0 {
            return None;
        }
        let least = u64::from(set.trailing_zeros());
        set &= set - 1;
        Some(least)
    })
}
