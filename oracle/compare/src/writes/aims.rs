//! Writes aimed at where a slip would show: calls of each operation with numbers at their limits, the same with one thing wrong or two, and
//! rooms around the bytes needed, at the buffer's end and behind it.

use oracle::limits::{FLAT, GREATEST_RATE, LAST_TIME, LIMIT, POOLS};
use oracle::{Piece, RecordFields, Rng, Write};

/// So many calls of each operation are written in each room.
const CALLS: usize = 3;

/// So many records of any numbers are.
const ANY: usize = 60;

pub fn round(seed: u64) -> Vec<Write> {
    let mut rng = Rng(seed);
    let mut writes = Vec::new();
    for admin in [0, 1, u64::MAX, rng.word()] {
        let head = Piece::Head { admin };
        writes.extend(ROOMS.map(|room| aimed(&mut rng, head, room)));
    }
    for operation in 1..=9 {
        for room in [ROOMS; CALLS].concat() {
            let call = Piece::Record(good(&mut rng, operation));
            writes.push(aimed(&mut rng, call, room));
        }
        for flaw in FLAWS {
            let mut fields = good(&mut rng, operation);
            flaw(&mut rng, &mut fields);
            writes.push(aimed(&mut rng, Piece::Record(fields), ROOMY));
            let (second, room) = (rng.pick(&FLAWS), rng.pick(&ROOMS));
            second(&mut rng, &mut fields);
            writes.push(aimed(&mut rng, Piece::Record(fields), room));
        }
    }
    for _ in 0..ANY {
        let (fields, room) = (any(&mut rng), rng.pick(&ROOMS));
        writes.push(aimed(&mut rng, Piece::Record(fields), room));
    }
    writes
}

/// A buffer's length and a place, for a piece of so many bytes.
type Room = fn(&mut Rng, usize) -> (usize, usize);

const ROOMY: Room = |rng, bytes| {
    let (before, behind) = (up_to(rng, 60), up_to(rng, 60));
    (before + bytes + behind, before)
};

const ROOMS: [Room; 9] = [
    ROOMY,
    |rng, bytes| {
        let before = up_to(rng, 60);
        (before + bytes, before)
    },
    |rng, bytes| {
        let before = up_to(rng, 60);
        (before + bytes - 1, before)
    },
    |rng, bytes| {
        let before = up_to(rng, 60);
        (before + up_to(rng, bytes - 1), before)
    },
    |rng, _| {
        let length = up_to(rng, 120);
        (length, length)
    },
    |rng, _| {
        let length = up_to(rng, 120);
        (length, length + 1 + up_to(rng, 120))
    },
    // Where places went round these would end in the buffer, or nearly.
    |rng, bytes| (up_to(rng, 120), usize::MAX - up_to(rng, 2 * bytes)),
    |rng, _| (up_to(rng, 120), rng.pick(&[1 << 32, (1 << 63) - 1, 1 << 63])),
    |rng, _| (up_to(rng, 120), up_to(rng, 130)),
];

fn up_to(rng: &mut Rng, most: usize) -> usize {
    rng.below(most as u64 + 1) as usize
}

fn aimed(rng: &mut Rng, piece: Piece, room: Room) -> Write {
    let (length, at) = room(rng, piece.bytes().len());
    Write { piece, at, before: (0..length).map(|_| rng.word() as u8).collect() }
}

/// A call of the operation that has all it needs and nothing more.
fn good(rng: &mut Rng, operation: u64) -> RecordFields {
    let mut fields = RecordFields { operation, ..RecordFields::default() };
    let (time, rate) = (rng.below(LAST_TIME + 1), (rng.word() >> 1) as i64);
    fields.now = rng.pick(&[0, 1, 1 << 32, LAST_TIME - 1, LAST_TIME, time]);
    fields.signer = number(rng);
    if operation <= 5 {
        fields.pool = rng.below(POOLS.into());
        fields.amount = amount(rng);
    }
    if operation <= 5 || operation == 9 {
        fields.subject = number(rng);
    }
    if matches!(operation, 3 | 5) {
        fields.other = number(rng);
    }
    if operation == 3 {
        fields.reply = rng.below(3);
    }
    if operation == 6 {
        fields.pool = FLAT.into();
        fields.amount = rng.pick(&[0, 1, GREATEST_RATE, GREATEST_RATE + 1, i64::MAX, rate]);
    }
    fields
}

/// Never 0.
fn number(rng: &mut Rng) -> u64 {
    let any = rng.word().max(1);
    rng.pick(&[1, 7, 255, 256, 1 << 32, 1 << 63, u64::MAX, any])
}

fn amount(rng: &mut Rng) -> i64 {
    let (limit, any) = (LIMIT as i64, rng.word() as i64);
    rng.pick(&[i64::MIN, -limit - 1, -1, 0, 1, 999_999, 1_000_000, limit, limit + 1, i64::MAX, any])
}

type Flaw = fn(&mut Rng, &mut RecordFields);

/// Each is a thing that may be wrong, and of some operations is not.
const FLAWS: [Flaw; 15] = [
    |rng, fields| fields.operation = rng.pick(&[0, 10, 11, 14, 128, 255]),
    |rng, fields| fields.operation = wide(rng, fields.operation),
    |rng, fields| fields.pool = rng.pick(&[4, 5, 128, 255]),
    |rng, fields| fields.pool = wide(rng, fields.pool),
    |rng, fields| fields.pool = rng.below(POOLS.into()),
    |_, fields| fields.pool = 1,
    |rng, fields| fields.reply = rng.pick(&[3, 4, 128, 255]),
    |rng, fields| fields.reply = wide(rng, fields.reply),
    |rng, fields| fields.reply = 1 + rng.below(2),
    |rng, fields| fields.now = rng.pick(&[LAST_TIME + 1, 1 << 63, u64::MAX]),
    |_, fields| fields.signer = 0,
    |rng, fields| fields.subject = if fields.subject == 0 { number(rng) } else { 0 },
    |rng, fields| fields.other = if fields.other == 0 { number(rng) } else { 0 },
    |rng, fields| fields.amount = rng.pick(&[1, i64::MAX]),
    |rng, fields| fields.amount = rng.pick(&[-1, i64::MIN]),
];

/// What a byte holds, and a bit that it has not: cut down it would be the same again. At times the largest number.
fn wide(rng: &mut Rng, byte: u64) -> u64 {
    if rng.one_in(8) {
        u64::MAX
    } else {
        byte | 1 << (8 + rng.below(56))
    }
}

/// Numbers of any width.
fn any(rng: &mut Rng) -> RecordFields {
    let mut word = || if rng.one_in(3) { 0 } else { rng.word() >> rng.below(64) };
    RecordFields {
        operation: word() % 11,
        pool: word() % 5,
        reply: word() % 4,
        now: word(),
        signer: word(),
        subject: word(),
        other: word(),
        amount: word() as i64,
    }
}
