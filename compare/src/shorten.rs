//! Shortening a list while it still shows what it shows.

/// Drops pieces, from halves down to single ones, as long as `shows` holds of
/// what is left. `tries` bounds how often it is asked.
pub fn shorten<T: Clone>(
    items: Vec<T>,
    mut tries: usize,
    mut shows: impl FnMut(&[T]) -> bool,
) -> Vec<T> {
    let mut kept = items;
    let mut piece = kept.len().div_ceil(2);
    while piece > 0 && tries > 0 {
        let mut start = 0;
        while start < kept.len() && tries > 0 {
            let end = (start + piece).min(kept.len());
            let without = [&kept[..start], &kept[end..]].concat();
            tries -= 1;
            if shows(&without) {
                kept = without;
            } else {
                start = end;
            }
        }
        piece /= 2;
    }
    kept
}

#[cfg(test)]
mod tests {
    use super::shorten;

    #[test]
    fn what_shows_it_is_kept() {
        let items: Vec<u32> = (0..1_000).collect();
        let shows = |kept: &[u32]| kept.contains(&17) && kept.contains(&902);
        assert_eq!(shorten(items, 1_000, shows), [17, 902]);
    }

    #[test]
    fn no_more_tries_than_allowed() {
        let mut asked = 0;
        let kept = shorten((0..100).collect(), 7, |_| {
            asked += 1;
            false
        });
        assert_eq!((kept.len(), asked), (100, 7));
    }
}
