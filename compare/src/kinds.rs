//! Numbers of messages, one for each kind.

use crate::text::KINDS;
use reference::ByKind;

/// A number for each kind, from two of them.
pub fn each(one: &ByKind, other: &ByKind, number: impl Fn(u64, u64) -> u64) -> ByKind {
    [0, 1, 2, 3].map(|kind| number(one[kind], other[kind]))
}

/// Adds other numbers, wrapping at 2^64.
pub fn add(numbers: &mut ByKind, more: &ByKind) {
    *numbers = each(numbers, more, u64::wrapping_add);
}

/// Numbers with their kinds.
pub fn told(numbers: &ByKind) -> String {
    let told: Vec<String> = (KINDS.iter().zip(numbers))
        .map(|(kind, number)| format!("{kind} {number}"))
        .collect();
    told.join(", ")
}

/// The first kind of which there are fewer, and what is told of it.
pub fn lacks(what: &str, numbers: &ByKind, least: u64) -> Option<String> {
    let place = numbers.iter().position(|&number| number < least)?;
    Some(format!("{} {what}", KINDS[place]))
}

#[cfg(test)]
mod tests {
    use super::*;

    #[test]
    fn numbers_are_told_by_kind() {
        let mut numbers = [1, 2, 3, u64::MAX];
        add(&mut numbers, &[5, 4, 3, 2]);
        assert_eq!(told(&numbers), "view 6, vote 6, vc 6, qc 1");
        assert_eq!(lacks("sent", &numbers, 2).as_deref(), Some("qc sent"));
        assert_eq!(lacks("sent", &numbers, 7).as_deref(), Some("view sent"));
        assert_eq!(lacks("sent", &numbers, 1), None);
    }
}
