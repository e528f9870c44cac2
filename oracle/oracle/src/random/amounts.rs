//! Amounts that matter to the books at hand.

use super::Author;
use crate::limits::{GREATEST_RATE, LIMIT};

const LEAST_STAKE: i128 = 1_000_000;

/// No caller of these has an amount beyond 64 bits.
fn narrow(amount: i128) -> i64 {
    amount.clamp(i64::MIN.into(), i64::MAX.into()) as i64
}

impl Author {
    fn stake_of(&self, pool: u8, account: u64) -> i128 {
        self.books.stakes.iter().find(|row| (row.pool, row.account) == (pool, account)).map_or(0, |row| row.stake)
    }

    pub fn stake_amount(&mut self, pool: u8, account: u64) -> i64 {
        let stake = self.stake_of(pool, account);
        let amount = match self.rng.below(16) {
            // On the least stake, and one off it.
            0 => LEAST_STAKE - stake,
            1 => LEAST_STAKE - stake - 1,
            // On the greatest stake, and one off it.
            2 if self.rng.one_in(3) => LIMIT - stake,
            3 if self.rng.one_in(3) => LIMIT - stake + 1,
            4 => self.rng.between(1, LIMIT),
            5 => self.rng.between(1, 3),
            6..=8 => LEAST_STAKE + self.rng.between(0, 5),
            _ => self.rng.between(LEAST_STAKE, 1_000_000_000),
        };
        narrow(amount)
    }

    /// Often all but a few units, so that later shares are small enough for every rounding to show.
    pub fn withdrawal(&mut self, pool: u8, account: u64) -> i64 {
        let stake = self.stake_of(pool, account);
        let amount = match self.rng.below(12) {
            0 => stake,
            1 if self.rng.one_in(3) => stake + 1,
            2..=6 => stake - self.rng.between(1, 6),
            _ => self.rng.between(1, stake.max(1)),
        };
        narrow(amount)
    }

    /// Around the whole balance, around what the cap makes of it, or a few units.
    pub fn payment(&mut self, pool: u8) -> i64 {
        let balance = self.books.balances[usize::from(pool)].max(1);
        let off = self.rng.between(-2, 2);
        let amount = match self.rng.below(10) {
            0 => balance + off,
            1 => 2 * balance + off,
            2 => balance * 4 / 3 + off,
            3 => balance / 2 + off,
            4..=6 => self.rng.between(1, 9),
            _ => self.rng.between(1, balance.min(LIMIT)),
        };
        narrow(if amount > LIMIT && !self.rng.one_in(4) { LIMIT } else { amount.max(1) })
    }

    pub fn reservation(&mut self, pool: u8) -> i64 {
        let balance = self.books.balances[usize::from(pool)].max(1);
        let free = (balance - self.books.unpaid[usize::from(pool)]).max(1);
        let off = self.rng.between(-2, 2);
        let amount = match self.rng.below(8) {
            0 => free + off,
            1 => balance + off,
            2 => self.rng.between(1, 9),
            3 => LIMIT,
            _ => self.rng.between(1, free),
        };
        narrow(amount.clamp(1, LIMIT))
    }

    pub fn claim_amount(&mut self, pool: u8, offer: u64) -> i64 {
        let row = self.books.offers.iter().find(|row| (row.pool, row.offer) == (pool, offer));
        let cover = row.map_or(1, |row| row.reserved - row.paid).max(1);
        let amount = match self.rng.below(8) {
            0 => cover,
            1 => cover + 1,
            2 => cover - 1,
            3 => self.rng.between(1, 9),
            4 => LIMIT,
            _ => self.rng.between(1, cover),
        };
        narrow(amount.max(1))
    }

    pub fn rate(&mut self) -> i64 {
        match self.rng.below(6) {
            0 => 0,
            1 => GREATEST_RATE,
            _ => self.rng.between(1, 10_000) as i64,
        }
    }
}
