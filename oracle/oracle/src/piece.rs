//! A log's head and records, written by a plain model from W-201's own sentence: "a writer into a lent buffer that refuses, changing nothing:
//! Malformed exactly when the record would be (a head: admin 0), else TableFull exactly when the room left is under 48 bytes (a head: 16)."

use crate::answer::Code;
use crate::operation::Operation;
use crate::record::Record;

/// A record's fields, each as wide as a number may come.
#[derive(Clone, Copy, Debug, Default, PartialEq, Eq)]
pub struct RecordFields {
    pub operation: u64,
    pub pool: u64,
    pub reply: u64,
    pub now: u64,
    pub signer: u64,
    pub subject: u64,
    pub other: u64,
    pub amount: i64,
}

impl RecordFields {
    /// None where one of them fits no record.
    pub fn record(&self) -> Option<Record> {
        let byte = |number: u64| u8::try_from(number).ok();
        Some(Record {
            operation: byte(self.operation)?,
            pool: byte(self.pool)?,
            reply: byte(self.reply)?,
            spare: [0; 5],
            now: self.now,
            signer: self.signer,
            subject: self.subject,
            other: self.other,
            amount: self.amount,
        })
    }

    /// None where the spare bytes say something.
    pub fn of(record: &Record) -> Option<RecordFields> {
        let &Record { operation, pool, reply, spare, now, signer, subject, other, amount } = record;
        let [operation, pool, reply] = [operation, pool, reply].map(u64::from);
        (spare == [0; 5]).then_some(RecordFields { operation, pool, reply, now, signer, subject, other, amount })
    }
}

/// What a log is written of.
#[derive(Clone, Copy, Debug, PartialEq, Eq)]
pub enum Piece {
    Head { admin: u64 },
    Record(RecordFields),
}

impl Piece {
    pub fn malformed(&self) -> bool {
        match self {
            Piece::Head { admin } => *admin == 0,
            Piece::Record(fields) => fields.record().and_then(|record| Operation::of(&record)).is_none(),
        }
    }

    /// Its bytes as document 01 lists them.
    pub fn bytes(&self) -> Vec<u8> {
        match *self {
            Piece::Head { admin } => {
                let name = b"POL".iter().copied();
                name.chain(little(1, 2)).chain(little(0, 3)).chain(little(admin, 8)).collect()
            }
            Piece::Record(RecordFields { operation, pool, reply, now, signer, subject, other, amount }) => {
                let bytes = [(operation, 1), (pool, 1), (reply, 1), (0, 5)];
                let words = [now, signer, subject, other, amount as u64].map(|word| (word, 8));
                bytes.into_iter().chain(words).flat_map(|(number, count)| little(number, count)).collect()
            }
        }
    }

    /// Writes it from `at` on, or refuses.
    pub fn write(&self, buffer: &mut [u8], at: usize) -> Code {
        if self.malformed() {
            return Code::Malformed;
        }
        let bytes = self.bytes();
        let room = buffer.iter_mut().skip(at);
        if room.len() < bytes.len() {
            return Code::TableFull;
        }
        room.zip(bytes).for_each(|(place, byte)| *place = byte);
        Code::Done
    }
}

/// A number in so many bytes, the least first.
fn little(number: u64, count: u32) -> impl Iterator<Item = u8> {
    (0..count).map(move |place| (number >> (8 * place)) as u8)
}

/// A piece, and the lent bytes that it is to be written into.
#[derive(Clone, Debug, PartialEq, Eq)]
pub struct Write {
    pub piece: Piece,
    pub at: usize,
    pub before: Vec<u8>,
}

impl Write {
    /// The code, and the bytes after it.
    pub fn done(&self) -> (Code, Vec<u8>) {
        let mut buffer = self.before.clone();
        (self.piece.write(&mut buffer, self.at), buffer)
    }
}
