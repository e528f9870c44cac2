//! The logs that are timed. Figures stay within document 01's limits, so that the module alone gives the same answers.

use idiomatic::{Code, Engine, Record};
use oracle::Rng;

pub const ADMIN: u64 = 1;
pub const CALLER: u64 = 2;
pub const START: u64 = 1_700_000_000;

/// Records before the clock is started, and those that are timed.
pub struct Log {
    pub name: &'static str,
    pub before: Vec<u8>,
    pub timed: Vec<u8>,
}

/// Follows an engine, so that it knows what there is to withdraw and to claim.
pub struct Author {
    pub rng: Rng,
    pub engine: Engine,
    pub now: u64,
    bytes: Vec<u8>,
}

impl Author {
    pub fn new(seed: u64) -> Author {
        let engine = Engine::fresh(ADMIN, crate::engines::STAKE_ROWS, crate::engines::OFFER_ROWS);
        let mut author = Author { rng: Rng(seed), engine, now: START, bytes: Vec::new() };
        author.call(9, 0, ADMIN, CALLER, 0, 0);
        author.call(6, 3, ADMIN, 0, 0, 500);
        author
    }

    /// The records so far.
    pub fn take(&mut self) -> Vec<u8> {
        std::mem::take(&mut self.bytes)
    }

    pub fn call(&mut self, operation: u8, pool: u8, signer: u64, subject: u64, other: u64, amount: i64) {
        let reply = if operation == 3 { 2 } else { 0 };
        let record = Record { operation, pool, reply, spare: [0; 5], now: self.now, signer, subject, other, amount };
        let code = self.engine.call(&record).code;
        assert!(!matches!(code, Code::OverLimit | Code::TableFull), "the module alone would not refuse this");
        self.bytes.extend(record.to_bytes());
    }

    pub fn stake(&mut self, pool: u8, account: u64, amount: i64) {
        self.call(1, pool, account, account, 0, amount);
    }

    pub fn withdraw(&mut self, pool: u8, account: u64, amount: i64) {
        self.call(2, pool, account, account, 0, amount);
    }

    pub fn pay(&mut self, pool: u8, amount: i64) {
        let invoice = 1 + self.rng.below(1_000_000);
        self.call(3, pool, CALLER, invoice, 900, amount);
    }

    /// Grants about this much more, where a tier counts what the offer was granted before.
    pub fn reserve(&mut self, pool: u8, offer: u64, more: i64) {
        let rows = &self.engine.pools[usize::from(pool)];
        let granted = rows.offer_of(offer).map_or(0, |at| rows.offers[at].reserved);
        let cap = [5_000, 7_500, 10_000, 10_000][usize::from(pool)];
        let before = if pool == 3 { 0 } else { granted * 10_000 / cap };
        self.call(4, pool, CALLER, offer, 0, before + more);
    }

    pub fn claim(&mut self, pool: u8, offer: u64, amount: i64) {
        self.call(5, pool, CALLER, offer, 900, amount);
    }

    pub fn below(&mut self, n: usize) -> usize {
        self.rng.below(n as u64) as usize
    }

    fn pool(&mut self) -> u8 {
        self.rng.below(4) as u8
    }

    /// An account with a row, and its stake.
    fn staker(&mut self, pool: u8) -> Option<(u64, i64)> {
        let rows = self.engine.pools[usize::from(pool)].stakes.len();
        let at = self.below(rows.max(1));
        self.engine.pools[usize::from(pool)].stakes.get(at).map(|row| (row.account, row.stake))
    }

    fn offer(&mut self, pool: u8) -> Option<u64> {
        let rows = self.engine.pools[usize::from(pool)].offers.len();
        let at = self.below(rows.max(1));
        self.engine.pools[usize::from(pool)].offers.get(at).map(|row| row.offer)
    }

    fn amount(&mut self, low: i64, high: i64) -> i64 {
        self.rng.between(low.into(), high.into()) as i64
    }
}

/// Four pools of some sixty accounts and forty offers each; every operation, and a few calls that are refused.
pub fn mixed(records: usize, seed: u64) -> Log {
    const WARMING: usize = 10_000;
    let mut author = Author::new(seed);
    (0..WARMING).for_each(|_| author.mixed());
    let before = author.take();
    (0..records).for_each(|_| author.mixed());
    Log { name: "mixed", before, timed: author.take() }
}

/// 256 stakes and 128 offers in each pool, all rows in use throughout; mostly claims and payouts.
pub fn full(records: usize, seed: u64) -> Log {
    let mut author = Author::new(seed);
    for pool in 0..4 {
        (0..256).for_each(|account| author.stake(pool, 1_000 + 7 * account, 1_000_000_000 * scale(pool)));
        (0..128).for_each(|offer| author.reserve(pool, 1 + 3 * offer, 1_000_000 * scale(pool)));
    }
    let before = author.take();
    (0..records).for_each(|_| author.full());
    let rows = |count: fn(&idiomatic::Pool) -> usize| author.engine.pools.iter().map(count).sum::<usize>();
    assert_eq!((rows(|pool| pool.stakes.len()), rows(|pool| pool.offers.len())), (1_024, 512), "the tables stay full");
    Log { name: "full tables", before, timed: author.take() }
}

/// Two pools are so large that stake times loss has no 64 bits.
fn scale(pool: u8) -> i64 {
    if pool < 2 {
        1
    } else {
        1_000
    }
}

impl Author {
    fn mixed(&mut self) {
        self.now += self.rng.below(600);
        let pool = self.pool();
        let amount = self.amount(1, 10_000) * scale(pool);
        match self.below(100) {
            0..=29 => {
                let (account, more) = (100 + self.rng.below(60), self.amount(1_000_000, 50_000_000) * scale(pool));
                self.stake(pool, account, more);
            }
            30..=49 => match self.staker(pool) {
                Some((account, stake)) if self.rng.one_in(4) => self.withdraw(pool, account, stake.max(1)),
                Some((account, stake)) => {
                    let part = self.amount(1, stake.max(1));
                    self.withdraw(pool, account, part);
                }
                None => self.withdraw(pool, 7, amount),
            },
            50..=61 => self.pay(pool, amount),
            62..=73 => {
                let offer = 1 + self.rng.below(40);
                self.reserve(pool, offer, amount);
            }
            74..=93 => {
                let offer = self.offer(pool).unwrap_or(1);
                self.claim(pool, offer, amount / 2 + 1);
            }
            94 => self.call(6, 3, ADMIN, 0, 0, amount % 1_000),
            95 => self.call(8, 0, ADMIN, 0, 0, 0),
            // Refused: a signer who is not the staker, a pool that is none, nothing claimed, more than the stake.
            96 => self.call(1, pool, 5, 6, 0, amount),
            97 => self.call(1, 4, 5, 5, 0, amount),
            98 => self.claim(pool, 1, 0),
            _ => self.withdraw(pool, 7, amount),
        }
    }

    fn full(&mut self) {
        self.now += self.rng.below(600);
        let pool = self.pool();
        let (account, offer) = (1_000 + 7 * self.rng.below(256), 1 + 3 * self.rng.below(128));
        let amount = self.amount(1, 100_000) * scale(pool);
        match self.below(100) {
            0..=34 => self.claim(pool, offer, amount),
            35..=59 => self.pay(pool, amount),
            60..=79 => self.reserve(pool, offer, 2 * amount),
            80..=91 => self.stake(pool, account, 5 * amount),
            _ => self.withdraw(pool, account, amount),
        }
    }
}
