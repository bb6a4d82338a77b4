//! Lines that are nearly a form.

use reference::{read_line, simulate, Reading};

fn no_form(line: &[u8]) {
    let shown = String::from_utf8_lossy(line).into_owned();
    assert_eq!(read_line(line), Reading::NoForm, "{shown}");
}

const WITH_K: &str = "(open 4 2 8 6 2 0 (0 10 2 3))";

const GOOD: [&str; 8] = [
    "(open 4 2 4 6 0 (0 10 2 3))",
    WITH_K,
    "(deliver (view 0 1))",
    "(deliver (vc 3 12))",
    "(sign (vote 1 2))",
    "(show (qc 10 0))",
    "(settle)",
    "(tick 30)",
];

#[test]
fn good_lines_are_forms() {
    for line in GOOD {
        assert_ne!(read_line(line.as_bytes()), Reading::NoForm, "{line}");
    }
}

#[test]
fn any_byte_left_out() {
    for line in GOOD {
        for place in 0..line.len() {
            let mut bytes = line.as_bytes().to_vec();
            let gone = bytes.remove(place);
            // Two numbers behind n made one: an opening without k.
            let joined = line == WITH_K && (9..16).contains(&place);
            if joined && gone == b' ' {
                assert!(matches!(read_line(&bytes), Reading::Opening(_)));
            } else if !gone.is_ascii_digit() {
                // A digit less may be another number of the same form.
                no_form(&bytes);
            }
        }
    }
}

#[test]
fn any_byte_put_in_that_is_no_digit() {
    for line in GOOD {
        for place in 0..=line.len() {
            for byte in [
                b' ', b'(', b')', b'x', b'\n', b'\r', b'\t', 0, 255, b'-', b'+',
            ] {
                let mut bytes = line.as_bytes().to_vec();
                bytes.insert(place, byte);
                no_form(&bytes);
            }
        }
    }
}

#[test]
fn any_byte_changed_to_one_that_is_no_digit() {
    for line in GOOD {
        for place in 0..line.len() {
            for byte in (0..=255).filter(|byte: &u8| !byte.is_ascii_digit()) {
                let mut bytes = line.as_bytes().to_vec();
                let other_certificate = [*b"vq", *b"qv"].contains(&[bytes[place], byte]);
                if bytes[place] != byte && !other_certificate {
                    bytes[place] = byte;
                    no_form(&bytes);
                }
            }
        }
    }
}

#[test]
fn numbers() {
    let read = |text: &str| read_line(format!("(deliver (vote {text} 0))").as_bytes());
    for good in ["0", "1", "10", "18446744073709551615"] {
        assert_ne!(read(good), Reading::NoForm, "{good}");
    }
    let bad = [
        "",
        "00",
        "01",
        "018446744073709551615",
        "18446744073709551616",
        "18446744073709551620",
        "99999999999999999999",
        "100000000000000000000",
        "1e3",
        "1.0",
        "0x1",
        "-0",
        "+1",
    ];
    for bad in bad {
        assert_eq!(read(bad), Reading::NoForm, "{bad}");
    }
    no_form(b"(tick 0)");
    no_form(b"(tick 01)");
    no_form(b"(tick 18446744073709551616)");
}

#[test]
fn kinds_that_a_form_lacks() {
    no_form(b"(sign (vc 0 0))");
    no_form(b"(sign (qc 0 0))");
    no_form(b"(show (view 0 0))");
    no_form(b"(show (vote 0 0))");
    no_form(b"(deliver (settle))");
    no_form(b"(deliver (open 0 0))");
    no_form(b"(Settle)");
}

fn opening(n: &str, clocks: usize) -> String {
    let clocks = vec!["0"; clocks].join(" ");
    format!("(open {n} 2 4 6 0 ({clocks}))")
}

#[test]
fn clocks_as_many_as_processors() {
    for n in [1, 3, 4, 63, 64] {
        let named = n.to_string();
        let read = |clocks| read_line(opening(&named, clocks).as_bytes());
        assert!(matches!(read(n), Reading::Opening(_)), "{n}");
        assert_eq!(read(n - 1), Reading::NoForm);
        assert_eq!(read(n + 1), Reading::NoForm);
    }
    no_form(opening("0", 0).as_bytes());
    no_form(opening("0", 1).as_bytes());
    no_form(opening("65", 65).as_bytes());
    no_form(opening("65", 64).as_bytes());
    no_form(opening("18446744073709551615", 64).as_bytes());
    no_form(opening("18446744073709551616", 64).as_bytes());
}

#[test]
fn empty_and_long_lines() {
    no_form(b"");
    no_form(b" ");
    for length in [4_799, 4_800, 4_801, 100_000] {
        no_form(&vec![b'0'; length]);
        no_form(&vec![b'('; length]);
        let mut line = b"(tick 1)".to_vec();
        line.resize(length, b' ');
        no_form(&line);
    }
    assert_eq!(simulate(b"\n\n"), b"(refused 1)\n(refused 1)\n");
}
