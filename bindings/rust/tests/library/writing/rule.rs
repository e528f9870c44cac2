//! The rule of a writer, plainly. Of the library it knows only what the fields of a row are called.

use pasumorip::log::Row;

pub const DONE: u8 = 0;
pub const MALFORMED: u8 = 1;
pub const TABLE_FULL: u8 = 11;
pub const LAST_TIME: u64 = 17_179_869_183;

/// What is to be written.
#[derive(Clone, Copy, Debug)]
pub enum Text {
    /// The head of an admin's log.
    Head(u64),
    Record(Row),
}

/// The code, and the buffer after it.
pub type Outcome = (u8, Vec<u8>);

pub fn write(buffer: &[u8], at: usize, text: &Text) -> Outcome {
    write_unless(is_malformed(text), buffer, at, text)
}

/// Malformed comes first, and then the room. A refusal changes nothing.
pub fn write_unless(malformed: bool, buffer: &[u8], at: usize, text: &Text) -> Outcome {
    if malformed {
        (MALFORMED, buffer.to_vec())
    } else if room(buffer, at) < length(text) {
        (TABLE_FULL, buffer.to_vec())
    } else {
        (DONE, [&buffer[..at], &bytes(text), &buffer[at + length(text)..]].concat())
    }
}

pub fn length(text: &Text) -> usize {
    match text {
        Text::Head(_) => 16,
        Text::Record(_) => 48,
    }
}

/// The bytes left from a place on: none behind the end.
pub fn room(buffer: &[u8], at: usize) -> usize {
    if at < buffer.len() {
        buffer.len() - at
    } else {
        0
    }
}

pub fn is_malformed(text: &Text) -> bool {
    match text {
        Text::Head(admin) => *admin == 0,
        Text::Record(row) => is_no_call(row),
    }
}

/// A time too late, no signer, an operation that there is none of, a field out of its range, no number where one is needed, or a field that
/// the operation does not use and that is not 0.
fn is_no_call(row: &Row) -> bool {
    let Row { operation, pool, reply, now, signer, subject, other, amount } = *row;
    let fits = match operation {
        // stake, withdraw, reserve
        1 | 2 | 4 => pool <= 3 && reply == 0 && subject != 0 && other == 0,
        // pay
        3 => pool <= 3 && reply <= 2 && subject != 0 && other != 0,
        // claim
        5 => pool <= 3 && reply == 0 && subject != 0 && other != 0,
        // rate
        6 => pool == 3 && reply == 0 && subject == 0 && other == 0 && amount >= 0,
        // pause, unpause
        7 | 8 => pool == 0 && reply == 0 && subject == 0 && other == 0 && amount == 0,
        // payout caller
        9 => pool == 0 && reply == 0 && subject != 0 && other == 0 && amount == 0,
        _ => false,
    };
    !fits || now > LAST_TIME || signer == 0
}

/// A head is its name, its version and three zero bytes, and the admin; a record three fields of one byte, five zero bytes, and five fields
/// of eight. A field that is no byte is of no record.
pub fn bytes(text: &Text) -> Vec<u8> {
    let mut bytes = Vec::new();
    match text {
        Text::Head(admin) => {
            bytes.extend(b"POL");
            put(&mut bytes, &[1], 2);
            put(&mut bytes, &[0], 3);
            put(&mut bytes, &[*admin], 8);
        }
        Text::Record(row) => {
            put(&mut bytes, &[row.operation, row.pool, row.reply], 1);
            put(&mut bytes, &[0], 5);
            put(&mut bytes, &[row.now, row.signer, row.subject, row.other, row.amount as u64], 8);
        }
    }
    bytes
}

/// Each number in so many bytes, the lowest first.
fn put(bytes: &mut Vec<u8>, numbers: &[u64], count: u32) {
    for number in numbers {
        for byte in 0..count {
            bytes.push((number >> (8 * byte)) as u8);
        }
    }
}
