//! A call as a row of a database, and when it is malformed; written as a record of a log.

use crate::{Record, FLAT, LAST_TIME};

/// The fields of a record, as wide as a database has them.
#[derive(Clone, Copy, Debug)]
pub struct Row {
    pub operation: u64,
    pub pool: u64,
    pub reply: u64,
    pub now: u64,
    pub signer: u64,
    pub subject: u64,
    pub other: u64,
    pub amount: i64,
}

/// Why nothing is written.
#[derive(Clone, Copy, Debug, PartialEq, Eq)]
pub enum Refusal {
    Malformed,
    NoRoom,
}

impl Row {
    #[inline]
    pub fn well_formed(&self) -> bool {
        let Row { operation, pool, reply, now, signer, subject, other, amount } = *self;
        let fields = match operation {
            1 | 2 | 4 => pool <= FLAT.into() && reply == 0 && subject != 0 && other == 0,
            3 => pool <= FLAT.into() && reply <= 2 && subject != 0 && other != 0,
            5 => pool <= FLAT.into() && reply == 0 && subject != 0 && other != 0,
            6 => pool == FLAT.into() && reply == 0 && subject == 0 && other == 0 && amount >= 0,
            7 | 8 => pool == 0 && reply == 0 && subject == 0 && other == 0 && amount == 0,
            9 => pool == 0 && reply == 0 && subject != 0 && other == 0 && amount == 0,
            _ => false,
        };
        fields && now <= LAST_TIME && signer != 0
    }

    /// Writes its record into the buffer, from `at` on.
    #[inline]
    pub fn write(&self, buffer: &mut [u8], at: usize) -> Result<(), Refusal> {
        if !self.well_formed() {
            return Err(Refusal::Malformed);
        }
        let room = buffer.get_mut(at..).and_then(<[u8]>::first_chunk_mut::<{ Record::LENGTH }>);
        let room = room.ok_or(Refusal::NoRoom)?;
        room[..8].copy_from_slice(&[self.operation as u8, self.pool as u8, self.reply as u8, 0, 0, 0, 0, 0]);
        room[8..16].copy_from_slice(&self.now.to_le_bytes());
        room[16..24].copy_from_slice(&self.signer.to_le_bytes());
        room[24..32].copy_from_slice(&self.subject.to_le_bytes());
        room[32..40].copy_from_slice(&self.other.to_le_bytes());
        room[40..].copy_from_slice(&self.amount.to_le_bytes());
        Ok(())
    }
}
