//! What writes are of.

use crate::cases::{Case, InCases};
use oracle::limits::{FLAT, LAST_TIME, POOLS};
use oracle::{Code, Piece, RecordFields, Write};

/// A write, and the oracle's code of it.
pub struct Wrote {
    pub write: Write,
    pub code: Code,
}

const PAY: u64 = 3;
const RATE: u64 = 6;

impl Wrote {
    fn head(&self, code: Code) -> bool {
        matches!(self.write.piece, Piece::Head { .. }) && self.code == code
    }

    fn record(&self, code: Code, holds: impl Fn(&RecordFields) -> bool) -> bool {
        matches!(&self.write.piece, Piece::Record(fields) if self.code == code && holds(fields))
    }

    fn written(&self, operation: u64) -> bool {
        self.record(Code::Done, |fields| fields.operation == operation)
    }

    fn full(&self) -> bool {
        self.record(Code::TableFull, |_| true)
    }

    /// The bytes left.
    fn room(&self) -> usize {
        self.write.before.len().saturating_sub(self.write.at)
    }

    /// Whether a record is Malformed for one thing alone: it is wrong, and with it mended there is a call.
    fn alone(&self, wrong: impl Fn(&RecordFields) -> bool, mend: impl Fn(&mut RecordFields)) -> bool {
        self.record(Code::Malformed, |fields| {
            let mut mended = *fields;
            mend(&mut mended);
            wrong(fields) && !Piece::Record(mended).malformed()
        })
    }

    fn unused(&self) -> bool {
        let known = |fields: &RecordFields| fields.pool < POOLS.into() && fields.reply <= 2;
        self.alone(|fields| fields.operation != RATE && known(fields), |fields| fields.pool = 0)
            || self.alone(|fields| fields.operation != PAY && known(fields), |fields| fields.reply = 0)
            || self.alone(|fields| fields.subject != 0, |fields| fields.subject = 0)
            || self.alone(|fields| fields.other != 0, |fields| fields.other = 0)
            || self.alone(|fields| fields.operation != RATE, |fields| fields.amount = 0)
    }
}

impl InCases for Wrote {
    const CASES: &'static [Case<Wrote>] = &[
        ("of a head", |wrote| wrote.head(Code::Done)),
        ("of a head, just 16 bytes left", |wrote| wrote.head(Code::Done) && wrote.room() == 16),
        ("of a head, 15 bytes left, refused", |wrote| wrote.head(Code::TableFull) && wrote.room() == 15),
        ("of a head, place behind the buffer's end, refused", |wrote| {
            wrote.head(Code::TableFull) && wrote.write.at > wrote.write.before.len()
        }),
        ("of a head of admin 0, refused", |wrote| wrote.head(Code::Malformed)),
        ("of a head of admin 0 without room, refused as malformed", |wrote| {
            wrote.head(Code::Malformed) && wrote.room() < 16
        }),
        ("of a stake", |wrote| wrote.written(1)),
        ("of a withdrawal", |wrote| wrote.written(2)),
        ("of a payment", |wrote| wrote.written(PAY)),
        ("of a reservation", |wrote| wrote.written(4)),
        ("of a claim", |wrote| wrote.written(5)),
        ("of a rate", |wrote| wrote.written(RATE)),
        ("of a pause", |wrote| wrote.written(7)),
        ("of an unpause", |wrote| wrote.written(8)),
        ("of a payout caller", |wrote| wrote.written(9)),
        ("of an amount below 0", |wrote| wrote.record(Code::Done, |fields| fields.amount < 0)),
        ("of the last time", |wrote| wrote.record(Code::Done, |fields| fields.now == LAST_TIME)),
        ("of a record, just 48 bytes left", |wrote| wrote.record(Code::Done, |_| true) && wrote.room() == 48),
        ("of a record, 47 bytes left, refused", |wrote| wrote.full() && wrote.room() == 47),
        ("of a record, place at the buffer's end, refused", |wrote| {
            wrote.full() && wrote.write.at == wrote.write.before.len()
        }),
        ("of a record, place behind the buffer's end, refused", |wrote| {
            wrote.full() && wrote.write.at > wrote.write.before.len()
        }),
        ("of a record, place within 48 of the last number, refused", |wrote| {
            wrote.full() && wrote.write.at > usize::MAX - 48
        }),
        ("of an unknown operation, refused", |wrote| {
            let unknown = |fields: &RecordFields| fields.operation <= u8::MAX.into();
            (1..=9).any(|operation| wrote.alone(unknown, |fields| fields.operation = operation))
        }),
        ("of an unknown pool, refused", |wrote| {
            let unknown = |fields: &RecordFields| (POOLS.into()..=u8::MAX.into()).contains(&fields.pool);
            wrote.alone(unknown, |fields| fields.pool = FLAT.into())
        }),
        ("of an unknown reply, refused", |wrote| {
            let unknown =
                |fields: &RecordFields| fields.operation == PAY && (3..=u8::MAX.into()).contains(&fields.reply);
            wrote.alone(unknown, |fields| fields.reply = 0)
        }),
        ("of a time past the last, refused", |wrote| {
            wrote.alone(|fields| fields.now > LAST_TIME, |fields| fields.now = LAST_TIME)
        }),
        ("without a signer, refused", |wrote| wrote.alone(|fields| fields.signer == 0, |fields| fields.signer = 1)),
        ("without a subject where one is needed, refused", |wrote| {
            wrote.alone(|fields| fields.subject == 0, |fields| fields.subject = 1)
        }),
        ("without an other where one is needed, refused", |wrote| {
            wrote.alone(|fields| fields.other == 0, |fields| fields.other = 1)
        }),
        ("of an unused field that is not 0, refused", Wrote::unused),
        ("of a rate below 0, refused", |wrote| {
            wrote.alone(|fields| fields.operation == RATE && fields.amount < 0, |fields| fields.amount = 0)
        }),
        ("of a rate of another pool, refused", |wrote| {
            wrote.alone(
                |fields| fields.operation == RATE && fields.pool < FLAT.into(),
                |fields| fields.pool = FLAT.into(),
            )
        }),
        ("of an operation that would be one if it were cut down, refused", |wrote| {
            wrote.alone(|fields| fields.operation > u8::MAX.into(), |fields| fields.operation %= 256)
        }),
        ("of a pool that would be one if it were cut down, refused", |wrote| {
            wrote.alone(|fields| fields.pool > u8::MAX.into(), |fields| fields.pool %= 256)
        }),
        ("of a reply that would be one if it were cut down, refused", |wrote| {
            wrote.alone(|fields| fields.reply > u8::MAX.into(), |fields| fields.reply %= 256)
        }),
        ("malformed and without room, refused as malformed", |wrote| {
            wrote.record(Code::Malformed, |_| true) && wrote.room() < 48
        }),
    ];
}
