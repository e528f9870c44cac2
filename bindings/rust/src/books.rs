//! The books that well-formed tables hold, as rows and figures with names.

use crate::numbers::{Account, Offer};
use crate::pool::Pool;

/// A copy of everything that the tables hold.
#[derive(Clone, Debug, PartialEq, Eq)]
pub struct Books {
    /// Ascending by pool, then by account.
    pub stakes: Vec<StakeRow>,
    /// Ascending by pool, then by offer.
    pub offers: Vec<OfferRow>,
    /// By the pool's number.
    pub pools: [PoolFigures; 4],
    pub settings: Settings,
}

#[derive(Clone, Copy, Debug, PartialEq, Eq)]
pub struct StakeRow {
    pub pool: Pool,
    pub account: Account,
    /// Below zero where rounding made the account the last sharer of a loss.
    pub stake: i64,
    /// From when the stake earns; 0 where there is no stake.
    pub since: u64,
    /// Yield banked and not yet paid.
    pub accrual: i64,
}

#[derive(Clone, Copy, Debug, PartialEq, Eq)]
pub struct OfferRow {
    pub pool: Pool,
    pub offer: Offer,
    pub figures: OfferFigures,
}

#[derive(Clone, Copy, Debug, Default, PartialEq, Eq)]
pub struct OfferFigures {
    pub reserved: i64,
    pub paid: i64,
}

impl OfferFigures {
    /// The cover left.
    pub fn cover(&self) -> i64 {
        self.reserved - self.paid
    }
}

#[derive(Clone, Copy, Debug, Default, PartialEq, Eq)]
pub struct PoolFigures {
    /// The sum of the pool's stakes.
    pub balance: i64,
    /// Reserved for offers and not yet paid.
    pub unpaid: i64,
}

#[derive(Clone, Copy, Debug, PartialEq, Eq)]
pub struct Settings {
    pub admin: Account,
    pub payout_caller: Option<Account>,
    pub paused: bool,
    /// The flat pool's yearly yield, in basis points.
    pub rate: i64,
}

impl Books {
    pub fn pool(&self, pool: Pool) -> PoolFigures {
        self.pools[usize::from(pool.number())]
    }

    /// The row of an account in a pool.
    pub fn stake(&self, pool: Pool, account: Account) -> Option<&StakeRow> {
        let place = self.stakes.binary_search_by_key(&(pool, account), |row| (row.pool, row.account));
        place.ok().map(|place| &self.stakes[place])
    }

    /// The figures of an offer in a pool: zeros where it has no row.
    pub fn offer(&self, pool: Pool, offer: Offer) -> OfferFigures {
        let place = self.offers.binary_search_by_key(&(pool, offer), |row| (row.pool, row.offer));
        place.map_or(OfferFigures::default(), |place| self.offers[place].figures)
    }
}
