//! The bytes of lines, also of those that are no form: an event with a kind
//! its form lacks or with 0 ticks, a setup with any number of clocks, or with
//! another number of numbers before them.

use reference::{read_line, Event, Message, Reading, Setup};

/// The kinds from 1 to 4, as lines name them.
pub const KINDS: [&str; 4] = ["view", "vote", "vc", "qc"];

/// The line of an event, its newline not among it.
pub fn event(event: Event) -> Vec<u8> {
    match event {
        Event::Deliver(message) => format!("(deliver {})", inner(message)),
        Event::Sign(message) => format!("(sign {})", inner(message)),
        Event::Show(message) => format!("(show {})", inner(message)),
        Event::Settle => "(settle)".to_owned(),
        Event::Tick(ticks) => format!("(tick {ticks})"),
    }
    .into_bytes()
}

/// "the message inside the form".
fn inner(message: Message) -> String {
    let kind = KINDS[message.kind() as usize - 1];
    format!("({kind} {} {})", message.view(), message.processor())
}

/// The numbers of an opening's line before its clocks.
#[derive(Clone, Copy, PartialEq, Eq, Debug)]
pub enum Heading {
    /// n, delta, gamma and views: no form.
    Four = 4,
    /// These and the faulty processors: "any opening line without it is read
    /// as k=3".
    Five = 5,
    /// With k before the faulty processors: "Lines are written with k".
    Six = 6,
    /// One number more: no form.
    Seven = 7,
}

/// The line of an opening with so many of its clocks.
pub fn opening(setup: &Setup, clocks: usize) -> Vec<u8> {
    headed(Heading::Six, setup, clocks)
}

/// The line of an opening with such a heading and so many of its clocks.
pub fn headed(heading: Heading, setup: &Setup, clocks: usize) -> Vec<u8> {
    let (plan, faulty) = (setup.plan, setup.faulty);
    let mut numbers = vec![plan.n, plan.delta, plan.gamma, plan.views];
    match heading {
        Heading::Four => {}
        Heading::Five => numbers.push(faulty),
        Heading::Six => numbers.extend([plan.k, faulty]),
        Heading::Seven => numbers.extend([plan.k, faulty, 0]),
    }
    let clocks = setup.clocks.iter().cycle().take(clocks);
    format!("(open {} ({}))", joined(&numbers), joined(clocks)).into_bytes()
}

/// Numbers with one blank between each two.
fn joined<'a>(numbers: impl IntoIterator<Item = &'a u64>) -> String {
    let numbers: Vec<String> = numbers.into_iter().map(u64::to_string).collect();
    numbers.join(" ")
}

/// How many numbers stand before the clocks of a line, if it is an opening's
/// but perhaps for that.
pub fn numbers_before_clocks(line: &[u8]) -> Option<usize> {
    let line = std::str::from_utf8(line).ok()?.strip_prefix("(open ")?;
    let (heading, clocks) = line.split_once(" (")?;
    let numbers: Vec<&str> = heading.split(' ').collect();
    let is_number = |text: &&str| {
        text.parse::<u64>()
            .is_ok_and(|number| number.to_string() == **text)
    };
    if !numbers.iter().all(is_number) {
        return None;
    }
    let with_five = format!("(open {} 0 0 0 0 ({clocks}", numbers[0]);
    let is_opening = matches!(read_line(with_five.as_bytes()), Reading::Opening(_));
    is_opening.then_some(numbers.len())
}

#[cfg(test)]
mod tests {
    use super::*;
    use reference::Plan;

    #[test]
    fn lines_are_read_as_what_they_were() {
        let message = Message::Qc(5, 63);
        for written in [Event::Deliver(message), Event::Settle, Event::Tick(9)] {
            assert_eq!(read_line(&event(written)), Reading::Event(written));
        }
        assert_eq!(read_line(&event(Event::Sign(message))), Reading::NoForm);
        assert_eq!(read_line(&event(Event::Tick(0))), Reading::NoForm);
    }

    #[test]
    fn an_opening_has_as_many_clocks_as_n_says() {
        let mut setup = Setup {
            plan: Plan {
                n: 4,
                delta: 2,
                gamma: 4,
                views: 6,
                k: 3,
            },
            faulty: 0,
            clocks: [0; 64],
        };
        setup.clocks[3] = 3;
        assert_eq!(opening(&setup, 4), b"(open 4 2 4 6 3 0 (0 0 0 3))");
        assert_eq!(read_line(&opening(&setup, 4)), Reading::Opening(setup));
        assert_eq!(read_line(&opening(&setup, 5)), Reading::NoForm);
        assert_eq!(read_line(&opening(&setup, 0)), Reading::NoForm);
        let with = |heading| headed(heading, &setup, 4);
        assert_eq!(with(Heading::Five), b"(open 4 2 4 6 0 (0 0 0 3))");
        assert_eq!(read_line(&with(Heading::Five)), Reading::Opening(setup));
        for heading in [Heading::Four, Heading::Seven] {
            assert_eq!(read_line(&with(heading)), Reading::NoForm);
        }
    }

    #[test]
    fn the_numbers_before_the_clocks_are_counted() {
        let count = |line: &str| numbers_before_clocks(line.as_bytes());
        assert_eq!(count("(open 4 2 4 6 (0 0 0 0))"), Some(4));
        assert_eq!(count("(open 4 2 4 6 0 (0 0 0 0))"), Some(5));
        assert_eq!(count("(open 4 2 4 6 9 0 (0 0 0 0))"), Some(6));
        assert_eq!(count("(open 1 2 4 6 9 0 0 (0))"), Some(7));
        for line in [
            "(open 4 2 4 6 (0 0 0))",
            "(open 4 2 4 06 0 (0 0 0 0))",
            "(open 4 2 4 6  0 (0 0 0 0))",
            "(open 4 2 4 6 0 (0 0 0 0)",
            "(open (0))",
            "(settle)",
        ] {
            assert_eq!(count(line), None, "{line}");
        }
    }
}
