//! Slips of the rule of a writer, to see that the cases of `random` tell each from it.

use super::rule::{
    bytes, is_malformed, length, room, write, write_unless, Outcome, Text, DONE, LAST_TIME, MALFORMED, TABLE_FULL,
};
use pasumorip::log::Row;

/// A writer that may have slipped.
type Model = Box<dyn Fn(&[u8], usize, &Text) -> Outcome>;

type Rule = fn(&[u8], usize, &Text) -> Outcome;
type Layout = fn(&mut [u8]);
type Judged = fn(Row) -> Row;
type Refused = fn(&Row) -> bool;

pub fn slips() -> Vec<(&'static str, Model)> {
    let mut slips: Vec<(&str, Model)> = Vec::new();
    for (name, model) in OTHER_RULES {
        slips.push((name, Box::new(model)));
    }
    for (name, length, lay) in OTHER_LAYOUTS {
        slips.push((name, Box::new(move |buffer, at, text| laid(buffer, at, text, length, lay))));
    }
    for (name, judged) in TAKEN_FOR_ANOTHER {
        let malformed = move |row: &Row| is_malformed(&Text::Record(judged(*row)));
        slips.push((name, Box::new(move |buffer, at, text| of_records(buffer, at, text, malformed))));
    }
    for (name, refused) in REFUSED_TOO {
        let malformed = move |row: &Row| refused(row) || is_malformed(&Text::Record(*row));
        slips.push((name, Box::new(move |buffer, at, text| of_records(buffer, at, text, malformed))));
    }
    slips
}

const OTHER_RULES: [(&str, Rule); 18] = [
    ("admin 0 is written", |buffer, at, text| {
        write_unless(is_malformed(text) && !matches!(text, Text::Head(_)), buffer, at, text)
    }),
    ("the room is tested before the fields", |buffer, at, text| match write_unless(false, buffer, at, text) {
        (DONE, _) => write(buffer, at, text),
        refused => refused,
    }),
    ("a buffer that is full is told as Malformed", |buffer, at, text| match write(buffer, at, text) {
        (TABLE_FULL, after) => (MALFORMED, after),
        outcome => outcome,
    }),
    ("what is Malformed is told as a full buffer", |buffer, at, text| match write(buffer, at, text) {
        (MALFORMED, after) => (TABLE_FULL, after),
        outcome => outcome,
    }),
    ("what is Malformed is written and then refused", |buffer, at, text| match write(buffer, at, text) {
        (MALFORMED, _) => (MALFORMED, write_unless(false, buffer, at, text).1),
        outcome => outcome,
    }),
    ("as much as there is room for is written and then refused", |buffer, at, text| cut(buffer, at, text, usize::MAX)),
    ("a room of one byte less is enough", |buffer, at, text| {
        match (write(buffer, at, text), cut(buffer, at, text, 1)) {
            ((TABLE_FULL, before), (_, after)) if after != before => (DONE, after),
            (outcome, _) => outcome,
        }
    }),
    ("a room of one byte more is needed", |buffer, at, text| with_room(buffer, at, text, length(text) + 1)),
    ("a head needs the room of a record", |buffer, at, text| with_room(buffer, at, text, 48)),
    ("the room is left as zeros by a refusal", |buffer, at, text| match write(buffer, at, text) {
        (TABLE_FULL, after) => {
            (TABLE_FULL, [&buffer[..buffer.len() - room(&after, at)], &vec![0; room(&after, at)]].concat())
        }
        outcome => outcome,
    }),
    ("there is room behind the end", |buffer, at, text| {
        with_wrapped_room(buffer, at, text, buffer.len().wrapping_sub(at) >= length(text))
    }),
    ("the place and the length are added up beyond what a word holds", |buffer, at, text| {
        with_wrapped_room(buffer, at, text, at.wrapping_add(length(text)) <= buffer.len())
    }),
    ("the place is left out", |buffer, _, text| write(buffer, 0, text)),
    ("the place is one further", |buffer, at, text| write(buffer, at.saturating_add(1), text)),
    ("nothing is written", |buffer, at, text| (write(buffer, at, text).0, buffer.to_vec())),
    ("the byte behind is cleared", |buffer, at, text| {
        let (code, mut after) = write(buffer, at, text);
        if let (DONE, Some(byte)) = (code, after.get_mut(at.wrapping_add(length(text)))) {
            *byte = 0;
        }
        (code, after)
    }),
    ("bytes that are 0 stay as they were", |buffer, at, text| {
        let (code, mut after) = write(buffer, at, text);
        let zeros = if length(text) == 48 { 3..8 } else { 5..8 };
        if code == DONE {
            zeros.for_each(|byte| after[at + byte] = buffer[at + byte]);
        }
        (code, after)
    }),
    ("fields that are not used are written as 0", |buffer, at, text| match text {
        Text::Record(row) if (7..=8).contains(&row.operation) => {
            let Row { operation, now, signer, .. } = *row;
            write(buffer, at, &Text::Record(Row { operation, now, signer, ..Row::default() }))
        }
        text => write(buffer, at, text),
    }),
];

/// The first bytes of what has too little room, where no more than so many are missing, and the refusal.
fn cut(buffer: &[u8], at: usize, text: &Text, most_missing: usize) -> Outcome {
    match write(buffer, at, text) {
        (TABLE_FULL, mut after) => {
            let (bytes, room) = (bytes(text), room(buffer, at));
            if room > 0 && bytes.len() - room <= most_missing {
                after[at..].copy_from_slice(&bytes[..room]);
            }
            (TABLE_FULL, after)
        }
        outcome => outcome,
    }
}

/// Refused where there is less room than this.
fn with_room(buffer: &[u8], at: usize, text: &Text, needed: usize) -> Outcome {
    match write(buffer, at, text) {
        (DONE, _) if room(buffer, at) < needed => (TABLE_FULL, buffer.to_vec()),
        outcome => outcome,
    }
}

/// Told as done where there is room by a sum that goes wrong.
fn with_wrapped_room(buffer: &[u8], at: usize, text: &Text, has_room: bool) -> Outcome {
    match write(buffer, at, text) {
        (TABLE_FULL, after) if has_room => (DONE, after),
        outcome => outcome,
    }
}

/// What a record or a head of so many bytes is laid out as, once it is written.
const OTHER_LAYOUTS: [(&str, usize, Layout); 12] = [
    ("a record's words have their greatest byte first", 48, |bytes| bytes[8..].chunks_mut(8).for_each(<[u8]>::reverse)),
    ("a head's admin has its greatest byte first", 16, |bytes| bytes[8..].reverse()),
    ("the operation and the pool are exchanged", 48, |bytes| bytes.swap(0, 1)),
    ("the pool and the reply are exchanged", 48, |bytes| bytes.swap(1, 2)),
    ("the time and the signer are exchanged", 48, |bytes| bytes[8..24].rotate_left(8)),
    ("the signer and the subject are exchanged", 48, |bytes| bytes[16..32].rotate_left(8)),
    ("the subject and the other are exchanged", 48, |bytes| bytes[24..40].rotate_left(8)),
    ("the other and the amount are exchanged", 48, |bytes| bytes[32..].rotate_left(8)),
    ("the amount has no sign", 48, |bytes| bytes[47] &= 0x7f),
    ("the version is 2", 16, |bytes| bytes[3] = 2),
    ("the version has its greatest byte first", 16, |bytes| bytes.swap(3, 4)),
    ("the name is another", 16, |bytes| bytes[..3].copy_from_slice(b"LOP")),
];

fn laid(buffer: &[u8], at: usize, text: &Text, of_length: usize, lay: Layout) -> Outcome {
    let (code, mut after) = write(buffer, at, text);
    if code == DONE && length(text) == of_length {
        lay(&mut after[at..at + of_length]);
    }
    (code, after)
}

fn of_records(buffer: &[u8], at: usize, text: &Text, malformed: impl Fn(&Row) -> bool) -> Outcome {
    match text {
        Text::Record(row) => write_unless(malformed(row), buffer, at, text),
        head => write(buffer, at, head),
    }
}

/// The row that is judged in the place of the one that is written.
const TAKEN_FOR_ANOTHER: [(&str, Judged); 17] = [
    ("an operation is cut down to a byte", |row| Row { operation: row.operation % 256, ..row }),
    ("a pool is cut down to a byte", |row| Row { pool: row.pool % 256, ..row }),
    ("a reply is cut down to a byte", |row| Row { reply: row.reply % 256, ..row }),
    ("operation 10 is written", |row| Row { operation: if row.operation == 10 { 8 } else { row.operation }, ..row }),
    ("pool 4 is written", |row| Row { pool: if row.pool == 4 { 3 } else { row.pool }, ..row }),
    ("reply 3 is written", |row| Row { reply: if row.reply == 3 { 2 } else { row.reply }, ..row }),
    ("a time one too late is written", |row| Row { now: if row.now == LAST_TIME + 1 { 0 } else { row.now }, ..row }),
    ("signer 0 is written", |row| Row { signer: row.signer.max(1), ..row }),
    ("subject 0 is written", |row| match row.operation {
        6..=8 => row,
        _ => Row { subject: row.subject.max(1), ..row },
    }),
    ("other 0 is written", |row| match row.operation {
        3 | 5 => Row { other: row.other.max(1), ..row },
        _ => row,
    }),
    (
        "a rate below zero is written",
        |row| if row.operation == 6 { Row { amount: row.amount.max(0), ..row } } else { row },
    ),
    (
        "a rate of any pool is written",
        |row| if row.operation == 6 { Row { pool: row.pool.max(3), ..row } } else { row },
    ),
    ("a pool that is not used is written", |row| if row.operation > 6 { Row { pool: 0, ..row } } else { row }),
    ("a reply that is not used is written", |row| if row.operation != 3 { Row { reply: 0, ..row } } else { row }),
    ("a subject that is not used is written", |row| match row.operation {
        6..=8 => Row { subject: 0, ..row },
        _ => row,
    }),
    ("an other that is not used is written", |row| match row.operation {
        3 | 5 => row,
        _ => Row { other: 0, ..row },
    }),
    ("an amount that is not used is written", |row| if row.operation > 6 { Row { amount: 0, ..row } } else { row }),
];

/// What only the books may refuse, or nobody.
const REFUSED_TOO: [(&str, Refused); 10] = [
    ("the last time is refused", |row| row.now == LAST_TIME),
    ("time 0 is refused", |row| row.now == 0),
    ("pool 0 is refused", |row| row.operation <= 5 && row.pool == 0),
    ("pool 3 is refused", |row| row.operation <= 5 && row.pool == 3),
    ("a reply that the invoice is not defaulted is refused", |row| row.operation == 3 && row.reply != 2),
    ("a stake that another signs is refused", |row| row.operation == 1 && row.signer != row.subject),
    ("amount 0 is refused", |row| row.operation <= 5 && row.amount == 0),
    ("an amount below zero is refused", |row| row.amount < 0),
    ("an amount above the greatest is refused", |row| row.amount > 1_000_000_000_000_000),
    ("a rate above the greatest is refused", |row| row.operation == 6 && row.amount > 1_000_000),
];
