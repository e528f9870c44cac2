//! Every place in buffers of every length, with what is written and what is refused.

use super::rule::{Text, DONE, MALFORMED, TABLE_FULL};
use super::{hold, told};
use pasumorip::log::Row;

const CLAIM: Row = Row {
    operation: 5,
    pool: 1,
    reply: 0,
    now: 1_763_125_200,
    signer: 50,
    subject: 12,
    other: 0x0102_0304_0506_0708,
    amount: -250_000,
};

/// A byte that is written as it was shows in the other.
fn patterns(length: usize) -> [Vec<u8>; 2] {
    let pattern: Vec<u8> = (0..length).map(|byte| (37 * byte + 11) as u8).collect();
    let other = pattern.iter().map(|byte| !byte).collect();
    [pattern, other]
}

#[test]
fn every_place_in_every_length() {
    let texts = [
        Text::Head(0x0807_0605_0403_0201),
        Text::Head(0),
        Text::Record(CLAIM),
        Text::Record(Row { other: 0, ..CLAIM }),
        Text::Record(Row { operation: 256 + 5, ..CLAIM }),
    ];
    for length in 0..=100 {
        for buffer in patterns(length) {
            for at in (0..=110).chain(usize::MAX - 110..=usize::MAX).chain(usize::MAX / 2 - 1..=usize::MAX / 2 + 1) {
                for text in &texts {
                    hold(&buffer, at, text);
                }
            }
        }
    }
}

#[test]
fn places_by_hand() {
    for (text, bytes) in [(Text::Head(1), 16), (Text::Record(CLAIM), 48)] {
        for (length, at, code) in [
            (bytes, 0, DONE),
            (bytes, 1, TABLE_FULL),
            (bytes - 1, 0, TABLE_FULL),
            (bytes + 9, 9, DONE),
            (bytes + 9, 10, TABLE_FULL),
            (0, 0, TABLE_FULL),
            (100, 100, TABLE_FULL),
            (100, 101, TABLE_FULL),
            (100, usize::MAX, TABLE_FULL),
            (100, usize::MAX - bytes + 1, TABLE_FULL),
        ] {
            let before = vec![0xee; length];
            let (told, after) = told(&before, at, &text);
            assert_eq!(told, code, "{text:?} at {at} of {length}");
            assert_eq!(after != before, code == DONE, "{text:?} at {at} of {length}");
        }
    }
    for text in [Text::Head(0), Text::Record(Row { signer: 0, ..CLAIM }), Text::Record(Row { pool: 257, ..CLAIM })] {
        for (length, at) in [(100, 0), (100, 100), (0, 0), (100, usize::MAX)] {
            assert_eq!(told(&vec![0xee; length], at, &text), (MALFORMED, vec![0xee; length]), "{text:?}");
        }
    }
}
