//! The accrued sum in whole numbers of 128 bits, written from the rule's own sentence: it calls neither the module nor the library.

use oracle::limits::LIMIT;
use oracle::{Answer, Books, Code, Question};

/// Yields of the Conservative, Balanced and Aggressive pools; the flat pool's is in the settings.
const TIER_RATES: [u32; 3] = [200, 500, 1_000];

/// A year of seconds times 10,000 basis points.
pub const DENOMINATOR: i128 = 315_360_000_000;

/// A row, with its pool's rate.
#[derive(Clone, Copy)]
pub struct Row {
    pub stake: i128,
    pub since: u64,
    pub banked: i128,
    pub rate: i128,
}

impl Row {
    pub fn at(self, now: u64) -> Accrued {
        Accrued { row: self, now }
    }
}

/// What an accrued query looks at.
#[derive(Clone, Copy)]
pub struct Accrued {
    pub row: Row,
    pub now: u64,
}

impl Accrued {
    /// None where the question is another, or malformed. An account without a row has a stake of 0 and nothing banked.
    pub fn of(books: &Books, question: &Question) -> Option<Accrued> {
        let Question::Accrued { pool, account, now } = *question else {
            return None;
        };
        if question.malformed() {
            return None;
        }
        let row = books.stakes.iter().find(|row| (u64::from(row.pool), row.account) == (pool, account));
        let (stake, since, banked) = row.map_or((0, 0, 0), |row| (row.stake, row.since, row.accrual));
        Some(Row { stake, since, banked, rate: rate(pool, books.settings.rate) }.at(now))
    }

    /// Stake, rate and the seconds since, multiplied.
    pub fn product(&self) -> i128 {
        self.row.stake * self.row.rate * i128::from(self.now.saturating_sub(self.row.since))
    }

    /// Truncated toward zero by itself, as `/` does it.
    pub fn running(&self) -> i128 {
        self.product() / DENOMINATOR
    }

    pub fn sum(&self) -> i128 {
        self.row.banked + self.running()
    }

    /// None where the sum is beyond plus or minus 10^15.
    pub fn shown(&self) -> Option<i128> {
        within_limits(self.sum())
    }

    pub fn answer(&self) -> Answer {
        self.shown().map_or(Answer::refusal(Code::OverLimit), |sum| Answer::told(sum as i64, 0))
    }
}

pub fn within_limits(sum: i128) -> Option<i128> {
    (-LIMIT..=LIMIT).contains(&sum).then_some(sum)
}

/// A pool's rate, where the flat pool's is this.
pub fn rate(pool: u64, flat: u32) -> i128 {
    TIER_RATES.get(pool as usize).copied().unwrap_or(flat).into()
}

#[cfg(test)]
mod tests {
    use super::*;

    fn shown(stake: i128, banked: i128, since: u64, now: u64) -> Option<i128> {
        Row { stake, since, banked, rate: 500 }.at(now).shown()
    }

    #[test]
    fn a_unit_below_zero_comes_with_its_second() {
        assert_eq!([630, 631].map(|now| shown(-1_000_000, 0, 0, now)), [Some(0), Some(-1)]);
        assert_eq!([630, 631].map(|now| shown(-1_000_000, 5, 0, now)), [Some(5), Some(4)]);
        assert_eq!([999, 1_630, 1_631].map(|now| shown(-1_000_000, 5, 1_000, now)), [Some(5), Some(5), Some(4)]);
    }

    #[test]
    fn sums_at_their_limits_and_one_beyond() {
        assert_eq!(shown(-LIMIT, 0, 0, 630_720_000), Some(-LIMIT));
        assert_eq!(shown(-LIMIT, 1_585_489, 0, 630_720_001), Some(-LIMIT));
        assert_eq!(shown(-LIMIT, 1_585_488, 0, 630_720_001), None);
        assert_eq!(shown(LIMIT, 0, 0, 630_720_000), Some(LIMIT));
        assert_eq!(shown(LIMIT, 1, 0, 630_720_000), None);
    }
}
