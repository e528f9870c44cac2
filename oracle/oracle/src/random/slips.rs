//! One thing wrong with a call.

use super::Author;
use crate::limits::{GREATEST_RATE, LAST_TIME, LIMIT};
use crate::record::Record;

impl Author {
    pub fn slip(&mut self, record: &mut Record) {
        match self.rng.below(16) {
            0 => record.operation = self.rng.pick(&[0, 10, 11, 255]),
            1 => record.pool = self.rng.pick(&[4, 5, 255]),
            2 => record.reply = self.rng.pick(&[1, 2, 3, 255]),
            3 => record.spare[self.rng.below(5) as usize] = self.rng.pick(&[1, 128, 255]),
            4 => record.now = self.rng.pick(&[LAST_TIME + 1, u64::MAX]),
            5 => record.signer = 0,
            6 => record.subject = if record.subject == 0 { 7 } else { 0 },
            7 => record.other = if record.other == 0 { 7 } else { 0 },
            8..=10 => record.signer = self.rng.pick(&[self.books.settings.admin, 2, 3, 7, 1 << 63]),
            11 => record.pool = self.rng.pick(&[0, 1, 2, 3]),
            12 if record.operation == 6 => record.amount = self.rng.pick(&[GREATEST_RATE + 1, 1 << 32, i64::MAX, -1]),
            _ => record.amount = self.rng.pick(&EDGES),
        }
    }
}

const EDGES: [i64; 9] = [0, -1, 1, 999_999, LIMIT as i64 - 1, LIMIT as i64, LIMIT as i64 + 1, i64::MAX, i64::MIN];
