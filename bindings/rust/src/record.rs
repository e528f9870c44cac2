//! A record of a log: 48 bytes, whatever they mean.

use crate::row::Row;
use std::array;

/// The length of a record in bytes.
pub const RECORD_BYTES: usize = 48;

const WORDS: usize = RECORD_BYTES / 8;

/// The fields of a record as they lie in its bytes, little-endian.
///
/// ```
/// use pasumorip::record::Record;
///
/// let pause = Record { operation: 7, signer: 1, ..Record::default() };
/// assert_eq!(Record::from_bytes(&pause.to_bytes()), pause);
/// ```
#[derive(Clone, Copy, Debug, Default, PartialEq, Eq)]
pub struct Record {
    pub operation: u8,
    pub pool: u8,
    pub reply: u8,
    pub spare: [u8; 5],
    pub now: u64,
    pub signer: u64,
    pub subject: u64,
    pub other: u64,
    pub amount: i64,
}

impl Record {
    pub fn from_bytes(bytes: &[u8; RECORD_BYTES]) -> Record {
        let word = |at: usize| u64::from_le_bytes(array::from_fn(|byte| bytes[8 * at + byte]));
        let [small, now, signer, subject, other, amount]: [u64; WORDS] = array::from_fn(word);
        let [operation, pool, reply, spare @ ..] = small.to_le_bytes();
        Record { operation, pool, reply, spare, now, signer, subject, other, amount: amount as i64 }
    }

    /// The bytes of any record, a Malformed one too, which the engine judges; [`log::record`](crate::log::record) refuses what is Malformed.
    pub fn to_bytes(&self) -> [u8; RECORD_BYTES] {
        let [a, b, c, d, e] = self.spare;
        let small = u64::from_le_bytes([self.operation, self.pool, self.reply, a, b, c, d, e]);
        let words: [u64; WORDS] = [small, self.now, self.signer, self.subject, self.other, self.amount as u64];
        array::from_fn(|at| words[at / 8].to_le_bytes()[at % 8])
    }

    /// The record as a row of a database. None where its spare bytes are not 0: a row has none of them, and would be another record's.
    pub fn row(&self) -> Option<Row> {
        (self.spare == [0; 5]).then(|| self.fields())
    }

    /// The row, whatever the spare bytes are.
    pub(crate) fn fields(&self) -> Row {
        let Record { operation, pool, reply, spare: _, now, signer, subject, other, amount } = *self;
        Row { operation: operation.into(), pool: pool.into(), reply: reply.into(), now, signer, subject, other, amount }
    }
}
