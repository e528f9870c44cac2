//! The library's writers, held to a plain rule, to the library's own verdict on records, and to the kept logs.

mod edges;
mod kept_logs;
mod kept_writes;
mod places;
mod random;
mod rule;
mod slips;
mod typed;

use pasumorip::face;
use rule::{Outcome, Text};

const GUARD: [u8; 64] = [0x5a; 64];

/// The library's outcome. The buffer is lent from within a longer one, whose bytes around it have to stay.
fn told(buffer: &[u8], at: usize, text: &Text) -> Outcome {
    let mut around = [&GUARD, buffer, &GUARD].concat();
    let lent = GUARD.len()..GUARD.len() + buffer.len();
    let code = match *text {
        Text::Head(admin) => face::write_head(&mut around[lent.clone()], at, admin),
        Text::Record(row) => face::write_record(&mut around[lent.clone()], at, row),
    };
    assert!(around.starts_with(&GUARD) && around.ends_with(&GUARD), "{text:?} at {at} of {}", buffer.len());
    (code, around[lent].to_vec())
}

fn hold(buffer: &[u8], at: usize, text: &Text) -> u8 {
    let expected = rule::write(buffer, at, text);
    assert_eq!(told(buffer, at, text), expected, "{text:?} at {at} of {}", buffer.len());
    expected.0
}
