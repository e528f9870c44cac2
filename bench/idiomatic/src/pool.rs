//! A pool: its rows in rising number and its sums.

use crate::answer::Code;
use crate::LIMIT;

const YEAR_IN_BASIS_POINTS: i128 = 31_536_000 * 10_000;

#[derive(Clone, Copy, Debug, Default, PartialEq, Eq)]
pub struct Stake {
    pub account: u64,
    pub stake: i64,
    pub since: u64,
    pub accrual: i64,
}

impl Stake {
    /// The accrual with what the stake has earned by now, if that is positive.
    pub fn banked(&self, rate: u32, now: u64) -> Result<i64, Code> {
        let elapsed = now.saturating_sub(self.since);
        let earned = i128::from(self.stake) * i128::from(rate) * i128::from(elapsed) / YEAR_IN_BASIS_POINTS;
        let accrual = i128::from(self.accrual) + earned.max(0);
        if accrual > i128::from(LIMIT) {
            Err(Code::OverLimit)
        } else {
            Ok(accrual as i64)
        }
    }
}

#[derive(Clone, Copy, Debug, Default, PartialEq, Eq)]
pub struct Offer {
    pub offer: u64,
    pub reserved: i64,
    pub paid: i64,
}

#[derive(Clone, Debug, Default)]
pub struct Pool {
    pub stakes: Vec<Stake>,
    pub offers: Vec<Offer>,
    pub balance: i64,
    /// Reserved and not yet paid.
    pub unpaid: i64,
}

impl Pool {
    /// The place of an account's row, or where it would stand.
    pub fn stake_of(&self, account: u64) -> Result<usize, usize> {
        self.stakes.binary_search_by_key(&account, |row| row.account)
    }

    pub fn offer_of(&self, offer: u64) -> Result<usize, usize> {
        self.offers.binary_search_by_key(&offer, |row| row.offer)
    }
}
