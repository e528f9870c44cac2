//! Random writes, many at the edges, against the plain rule; and slips of the rule told from it by the same writes.

use super::hold;
use super::rule::{write, Text, DONE, LAST_TIME, MALFORMED, TABLE_FULL};
use super::slips::slips;
use crate::numbers::Numbers;
use pasumorip::log::Row;
use std::collections::BTreeMap;

const SEED: u64 = 201;
const WRITES: u64 = 1_000_000;
/// How often each case has to be met at least.
const OFTEN: u64 = 5_000;

/// A buffer, a place in it, near it or far behind it, and what is to be written there.
pub fn any_try(numbers: &mut Numbers) -> (Vec<u8>, usize, Text) {
    let text = match numbers.up_to(5) {
        0 => Text::Head(numbers.word() * numbers.up_to(3).min(1)),
        _ => Text::Record(any_row(numbers)),
    };
    let lengths = [0, 15, 16, 17, 47, 48, 49, 64, 96, 112, numbers.up_to(120) as usize];
    let length = numbers.pick(&lengths);
    let buffer: Vec<u8> = (0..length).map(|_| numbers.word() as u8).collect();
    (buffer, any_place(numbers, length), text)
}

fn any_place(numbers: &mut Numbers, length: usize) -> usize {
    let near = numbers.up_to(2) as usize;
    let place = numbers.up_to(length as u64 + 3) as usize;
    let from_end = |bytes: usize| (length + 1).saturating_sub(bytes + near);
    let behind = numbers.pick(&[length, usize::MAX / 2, usize::MAX - place]);
    numbers.pick(&[0, 0, place, from_end(16), from_end(48), from_end(48), from_end(48), behind])
}

/// A call, of which a field or two may be changed.
fn any_row(numbers: &mut Numbers) -> Row {
    let mut row = any_call(numbers);
    for _ in 0..numbers.pick(&[0, 0, 0, 1, 1, 2]) {
        change(numbers, &mut row);
    }
    row
}

fn any_call(numbers: &mut Numbers) -> Row {
    let mut number = || {
        let any = numbers.word().max(1);
        numbers.pick(&[1, 2, any, u64::MAX])
    };
    let (signer, subject, other) = (number(), number(), number());
    let times = [0, 1, numbers.up_to(LAST_TIME), LAST_TIME];
    let amounts = [i64::MIN, -1, 0, 1, numbers.amount(), numbers.word() as i64, i64::MAX];
    let (now, amount, pool) = (numbers.pick(&times), numbers.pick(&amounts), numbers.up_to(3));
    let row = Row { operation: 1 + numbers.up_to(8), now, signer, ..Row::default() };
    match row.operation {
        1 | 2 | 4 => Row { pool, subject, amount, ..row },
        3 => Row { pool, reply: numbers.up_to(2), subject, other, amount, ..row },
        5 => Row { pool, subject, other, amount, ..row },
        6 => Row { pool: 3, amount: amount & i64::MAX, ..row },
        9 => Row { subject, ..row },
        _ => row,
    }
}

fn change(numbers: &mut Numbers, row: &mut Row) {
    let edges = [0, 1, 255, u64::MAX, numbers.word()];
    let edge = numbers.pick(&edges);
    let wide = 1 << (8 + numbers.up_to(55));
    match numbers.up_to(7) {
        0 => row.operation = numbers.pick(&[10, edge, row.operation.wrapping_add(wide)]),
        1 => row.pool = numbers.pick(&[2, 4, edge, row.pool.wrapping_add(wide)]),
        2 => row.reply = numbers.pick(&[2, 3, edge, row.reply.wrapping_add(wide)]),
        3 => row.now = numbers.pick(&[LAST_TIME + 1, edge]),
        4 => row.signer = numbers.pick(&[0, edge]),
        5 => row.subject = numbers.pick(&[0, edge]),
        6 => row.other = numbers.pick(&[0, edge]),
        _ => row.amount = numbers.pick(&[-1, edge as i64]),
    }
}

/// The operation, 0 for a head, none where it is not known.
fn kind(text: &Text) -> Option<u64> {
    match text {
        Text::Head(_) => Some(0),
        Text::Record(row) => Some(row.operation).filter(|operation| (1..=9).contains(operation)),
    }
}

#[test]
fn random_writes() {
    let mut numbers = Numbers(SEED);
    let mut met = BTreeMap::<(Option<u64>, u8), u64>::new();
    for _ in 0..WRITES {
        let (buffer, at, text) = any_try(&mut numbers);
        let code = hold(&buffer, at, &text);
        *met.entry((kind(&text), code)).or_default() += 1;
    }
    // Heads and nine operations with each code, and other operations, which are Malformed.
    let known = (0..=9).flat_map(|kind| [DONE, MALFORMED, TABLE_FULL].map(|code| (Some(kind), code)));
    let cases: Vec<_> = [(None, MALFORMED)].into_iter().chain(known).collect();
    assert!(met.keys().eq(&cases) && met.values().all(|times| *times >= OFTEN), "{met:#?}");
}

/// By the first of the same writes, on which the library does as the rule does.
#[test]
fn slips_of_the_rule_are_told_from_it() {
    let mut numbers = Numbers(SEED);
    let tries: Vec<_> = (0..10_000).map(|_| any_try(&mut numbers)).collect();
    let outcomes: Vec<_> = tries.iter().map(|(buffer, at, text)| write(buffer, *at, text)).collect();
    for (slip, slipped) in slips() {
        let differs =
            tries.iter().zip(&outcomes).filter(|((buffer, at, text), told)| slipped(buffer, *at, text) != **told);
        assert!(differs.count() >= 10, "{slip}");
    }
}
