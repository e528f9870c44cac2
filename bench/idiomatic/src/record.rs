//! A record of 48 bytes, and the row that it stands for.

use crate::Row;

#[derive(Clone, Copy, Debug)]
pub struct Record {
    pub operation: u8,
    pub pool: u8,
    pub reply: u8,
    pub spare: [u8; 5],
    pub now: u64,
    pub signer: u64,
    pub subject: u64,
    pub other: u64,
    pub amount: i64,
}

impl Record {
    pub const LENGTH: usize = 48;

    pub fn from_bytes(bytes: &[u8; Record::LENGTH]) -> Record {
        let word = |at: usize| u64::from_le_bytes(bytes[at..at + 8].try_into().expect("eight bytes"));
        Record {
            operation: bytes[0],
            pool: bytes[1],
            reply: bytes[2],
            spare: bytes[3..8].try_into().expect("five bytes"),
            now: word(8),
            signer: word(16),
            subject: word(24),
            other: word(32),
            amount: word(40) as i64,
        }
    }

    pub fn to_bytes(&self) -> [u8; Record::LENGTH] {
        let mut bytes = [0; Record::LENGTH];
        bytes[..3].copy_from_slice(&[self.operation, self.pool, self.reply]);
        bytes[3..8].copy_from_slice(&self.spare);
        let words = [self.now, self.signer, self.subject, self.other, self.amount as u64];
        for (place, word) in bytes[8..].chunks_exact_mut(8).zip(words) {
            place.copy_from_slice(&word.to_le_bytes());
        }
        bytes
    }

    pub fn row(&self) -> Row {
        let Record { operation, pool, reply, now, signer, subject, other, amount, .. } = *self;
        let [operation, pool, reply] = [operation, pool, reply].map(u64::from);
        Row { operation, pool, reply, now, signer, subject, other, amount }
    }

    pub fn well_formed(&self) -> bool {
        self.spare == [0; 5] && self.row().well_formed()
    }
}
