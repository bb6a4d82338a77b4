//! Cutting an input into lines.

use reference::{simulate, Stream};

/// The printout when the input comes in pieces of this size.
fn in_pieces(input: &[u8], size: usize) -> Vec<u8> {
    let mut out = Vec::new();
    let mut stream = Stream::new();
    for piece in input.chunks(size) {
        stream.feed(piece, &mut out);
    }
    stream.finish(&mut out);
    out
}

fn prints(input: &[u8], output: &str) {
    assert_eq!(String::from_utf8_lossy(&simulate(input)), output);
    for size in [1, 2, 3, 7, 4_800, 4_801, 4_802, 65_536] {
        assert_eq!(String::from_utf8_lossy(&in_pieces(input, size)), output);
    }
}

const PROCESSORS: &str = "(cabinet 0 0 1)\n(cabinet 1 0 1)\n(cabinet 2 0 1)\n(cabinet 3 0 1)\n";

#[test]
fn bytes_after_the_last_newline_fail_check_1() {
    let input = b"(open 4 2 4 6 0 (0 0 0 0))\n(tick 1)\n(tick 1)";
    prints(
        input,
        &format!("(done 0 8)\n(done 1 8)\n(refused 1)\n{PROCESSORS}"),
    );
    prints(b"(open 4 2 4 6 0 (0 0 0 0))", "(refused 1)\n");
    prints(b" ", "(refused 1)\n");
}

#[test]
fn a_long_line_is_answered_once() {
    let mut input = b"(open 4 2 4 6 0 (0 0 0 0))\n".to_vec();
    input.extend_from_slice(&[b'7'; 20_000]);
    input.extend_from_slice(b"\n(tick 1)\n");
    prints(
        &input,
        &format!("(done 0 8)\n(refused 1)\n(done 1 8)\n{PROCESSORS}"),
    );
    prints(&[b'7'; 20_000], "(refused 1)\n");
}

#[test]
fn a_form_far_inside_a_long_line_is_no_line_of_its_own() {
    for blanks in [4_790, 4_792, 4_793, 4_800, 4_801, 4_802, 9_602] {
        let mut input = vec![b' '; blanks];
        input.extend_from_slice(b"(settle)\n");
        prints(&input, "(refused 1)\n");
    }
}

#[test]
fn other_line_ends_are_bytes_of_the_line() {
    prints(b"(settle)\r\n", "(refused 1)\n");
    prints(b"(settle)\r(settle)\n", "(refused 1)\n");
    prints(b"\0\n\xff\xfe\n", "(refused 1)\n(refused 1)\n");
}
