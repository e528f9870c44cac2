//! The lent tables as words, and when they are well formed.

use crate::books::{Books, OfferRow, Settings, StakeRow};
use crate::limits::{GREATEST_RATE, LAST_TIME, LIMIT, MOST_OFFERS, MOST_STAKES, POOLS};

/// How many rows of each kind are lent.
#[derive(Clone, Copy, Debug, PartialEq, Eq)]
pub struct Rooms {
    pub stakes: usize,
    pub offers: usize,
}

impl Rooms {
    /// The replay program's.
    pub const FULL: Rooms = Rooms { stakes: MOST_STAKES, offers: MOST_OFFERS };

    pub fn lent(&self) -> bool {
        (1..=MOST_STAKES).contains(&self.stakes) && (1..=MOST_OFFERS).contains(&self.offers)
    }
}

/// Every lent row, used or not. Signed figures are two's complement words.
#[derive(Clone, Debug, PartialEq, Eq)]
pub struct Tables {
    /// pool, account, stake, since, accrual
    pub stakes: Vec<[u64; 5]>,
    /// pool, offer, reserved, paid
    pub offers: Vec<[u64; 4]>,
    pub balances: [u64; POOLS as usize],
    pub unpaid: [u64; POOLS as usize],
    /// admin, payout caller, paused, rate
    pub settings: [u64; 4],
}

fn signed(word: u64) -> i128 {
    i128::from(word as i64)
}

fn word(figure: i128) -> u64 {
    i64::try_from(figure).expect("a figure within its limit has a word") as u64
}

impl Tables {
    pub fn rooms(&self) -> Rooms {
        Rooms { stakes: self.stakes.len(), offers: self.offers.len() }
    }

    pub fn of(books: &Books, rooms: Rooms) -> Tables {
        let stake_words = |r: &StakeRow| [r.pool.into(), r.account, word(r.stake), r.since, word(r.accrual)];
        let offer_words = |r: &OfferRow| [r.pool.into(), r.offer, word(r.reserved), word(r.paid)];
        let mut stakes: Vec<_> = books.stakes.iter().map(stake_words).collect();
        let mut offers: Vec<_> = books.offers.iter().map(offer_words).collect();
        stakes.resize(rooms.stakes, [0; 5]);
        offers.resize(rooms.offers, [0; 4]);
        let Settings { admin, caller, paused, rate } = books.settings;
        Tables {
            stakes,
            offers,
            balances: books.balances.map(word),
            unpaid: books.unpaid.map(word),
            settings: [admin, caller, paused.into(), rate.into()],
        }
    }

    /// The books, where the tables are well formed.
    pub fn books(&self) -> Option<Books> {
        if !self.well_formed() {
            return None;
        }
        let used = |row: &&[u64; 5]| row[1] != 0;
        let used_offer = |row: &&[u64; 4]| row[1] != 0;
        let stake_row = |&[pool, account, stake, since, accrual]: &[u64; 5]| StakeRow {
            pool: pool as u8,
            account,
            stake: signed(stake),
            since,
            accrual: signed(accrual),
        };
        let offer_row = |&[pool, offer, reserved, paid]: &[u64; 4]| OfferRow {
            pool: pool as u8,
            offer,
            reserved: signed(reserved),
            paid: signed(paid),
        };
        let [admin, caller, paused, rate] = self.settings;
        Some(Books {
            stakes: self.stakes.iter().filter(used).map(stake_row).collect(),
            offers: self.offers.iter().filter(used_offer).map(offer_row).collect(),
            balances: self.balances.map(signed),
            unpaid: self.unpaid.map(signed),
            settings: Settings { admin, caller, paused: paused == 1, rate: rate as u32 },
        })
    }

    pub fn well_formed(&self) -> bool {
        let [admin, _, paused, rate] = self.settings;
        let settings = admin != 0 && paused <= 1 && rate <= GREATEST_RATE as u64;
        settings
            && self.rooms().lent()
            && ordered(&self.stakes)
            && ordered(&self.offers)
            && self.stakes.iter().all(|row| *row == [0; 5] || good_stake(row))
            && self.offers.iter().all(|row| *row == [0; 4] || good_offer(row))
            && (0..POOLS).all(|pool| self.sums_match(pool))
    }

    /// "each balance is its stakes' signed sum; each reserved sum is its offers' reserved minus paid"
    fn sums_match(&self, pool: u8) -> bool {
        let of_pool = |row_pool: u64| row_pool == u64::from(pool);
        let stakes: i128 = self.stakes.iter().filter(|row| of_pool(row[0])).map(|row| signed(row[2])).sum();
        let unpaid: i128 =
            self.offers.iter().filter(|row| of_pool(row[0])).map(|row| signed(row[2]) - signed(row[3])).sum();
        signed(self.balances[usize::from(pool)]) == stakes && signed(self.unpaid[usize::from(pool)]) == unpaid
    }
}

/// "used rows first, strictly ascending by pool then number, unused rows all zero"
fn ordered<const N: usize>(rows: &[[u64; N]]) -> bool {
    let used = rows.iter().take_while(|row| **row != [0; N]).count();
    let ascends = |pair: &[[u64; N]]| (pair[0][0], pair[0][1]) < (pair[1][0], pair[1][1]);
    rows[..used].windows(2).all(ascends) && rows[used..].iter().all(|row| *row == [0; N])
}

fn good_stake(&[pool, account, stake, since, accrual]: &[u64; 5]) -> bool {
    pool < u64::from(POOLS)
        && account != 0
        && (stake != 0 || (accrual != 0 && since == 0))
        && since <= LAST_TIME
        && signed(stake).abs() <= LIMIT
        && i128::from(accrual) <= LIMIT
}

fn good_offer(&[pool, offer, reserved, paid]: &[u64; 4]) -> bool {
    pool < u64::from(POOLS) && offer != 0 && (1..=LIMIT).contains(&i128::from(reserved)) && paid <= reserved
}
