//! The generator program: a load of any length, piece by piece.

use crate::check;
use crate::load::{generate, generate_more, Load};
use crate::print;
use crate::reader::{read_line, read_number, Reading};
use crate::run::{Answer, Run};
use crate::session::{NETWORK_WORDS, TALLY_WORDS};
use std::io::{Result, Write};

/// How to call it.
const USAGE: &[u8] = b"usage: generate OPENING STEPS SETTLE SEED\n";

/// The bytes written at once.
const PIECE: usize = 1 << 16;

/// What came of a call.
#[derive(Clone, Copy, PartialEq, Eq, Debug)]
pub enum Ended {
    /// The load is written.
    Loaded,
    /// A check refused the opening.
    Refused,
    /// The words of the call are none that it takes.
    Misused,
}

/// Does what a call of the program does, given its words: the line of an
/// opening and three numbers. The load is for `out`, what refuses it for
/// `errors`. Lent are as many words as the simulator program lends.
pub fn run_generator(
    words: &[&[u8]],
    out: &mut impl Write,
    errors: &mut impl Write,
) -> Result<Ended> {
    let Some((opening, load)) = parse(words) else {
        errors.write_all(USAGE)?;
        return Ok(Ended::Misused);
    };
    if let Some(check) = write_load(opening, load, out)? {
        let mut refusal = Vec::new();
        print::answer(&mut refusal, Answer::Refused(check));
        errors.write_all(&refusal)?;
        return Ok(Ended::Refused);
    }
    Ok(Ended::Loaded)
}

/// The line of the opening, and what the load is made with.
fn parse<'a>(words: &[&'a [u8]]) -> Option<(&'a [u8], Load)> {
    let &[opening, steps, settle, seed] = words else {
        return None;
    };
    let load = Load {
        steps: read_number(steps)?,
        settle: read_number(settle)?,
        seed: read_number(seed)?,
        step: 0,
    };
    Some((opening, load))
}

/// Writes a whole load, or answers the check that refuses its opening.
fn write_load(opening: &[u8], mut load: Load, out: &mut impl Write) -> Result<Option<u64>> {
    let Reading::Opening(setup) = read_line(opening) else {
        return Ok(Some(check::NO_FORM));
    };
    let mut run = Run::unopened();
    let (mut tally, mut network) = (vec![0; TALLY_WORDS], vec![0; NETWORK_WORDS]);
    let mut lent = vec![0; PIECE];
    let mut piece = generate(
        &setup,
        &mut load,
        &mut run,
        &mut tally,
        &mut network,
        &mut lent,
    );
    loop {
        match piece {
            Err(check) => return Ok(Some(check)),
            Ok(written) => {
                out.write_all(&lent[..written.bytes])?;
                if !written.full {
                    return Ok(None);
                }
            }
        }
        piece = generate_more(&mut load, &mut run, &mut tally, &mut network, &mut lent);
    }
}
