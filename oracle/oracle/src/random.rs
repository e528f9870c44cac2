//! Random logs: mostly calls that take effect, on figures that lie on an edge or one off it, and some that are refused.

mod amounts;
mod slips;

use crate::books::Books;
use crate::engine::Engine;
use crate::limits::{FLAT, LAST_TIME, POOLS};
use crate::log::head;
use crate::record::Record;
use crate::rng::Rng;
use crate::tables::Rooms;

/// Accounts at both ends of their range.
const ACCOUNTS: [u64; 14] = [2, 3, 4, 5, 6, 7, 8, 9, 10, 11, 12, 1 << 32, 1 << 63, u64::MAX];

const OFFERS: [u64; 9] = [1, 2, 3, 4, 5, 6, 7, 1 << 63, u64::MAX];

/// How often each operation comes.
const MIX: [u8; 40] = [
    1, 1, 1, 1, 1, 1, 1, 1, 1, 1, 2, 2, 2, 2, 2, 2, 3, 3, 3, 3, 3, 3, 4, 4, 4, 4, 4, 4, 5, 5, 5, 5, 5, 5, 5, 6, 6, 7,
    8, 9,
];

/// How many calls there are to one with something wrong.
const CALLS_PER_SLIP: u64 = 12;

/// Writes calls for the books that it is shown, so that it knows what there is to withdraw, to claim and to share.
pub struct Author {
    rng: Rng,
    books: Books,
    clock: u64,
    /// How many accounts and offers beyond the fixed ones take part.
    crowd: u64,
    /// Whether it began from books with rows, which then take part too.
    settled: bool,
    pub calls_per_slip: u64,
}

/// A log of `count` records after its head.
pub fn random_log(seed: u64, count: usize, rooms: Rooms) -> Vec<u8> {
    const ADMIN: u64 = 1;
    let mut engine = Engine::fresh(ADMIN, rooms).expect("the rooms are within their limits");
    let mut author = Author::new(seed, engine.books().clone());
    let mut bytes = head(ADMIN).to_vec();
    for _ in 0..count {
        let record = author.record();
        engine.call(&record);
        author.see(engine.books().clone());
        bytes.extend(record.to_bytes());
    }
    bytes
}

impl Author {
    /// For a history that begins from these books.
    pub fn new(seed: u64, books: Books) -> Author {
        let mut rng = Rng(seed);
        let crowd = rng.pick(&[0, 0, 0, 20, 2_000]);
        let clock = rng.pick(&[0, 1_000, 1_700_000_000]);
        let settled = !books.stakes.is_empty() || !books.offers.is_empty();
        Author { rng, books, clock, crowd, settled, calls_per_slip: CALLS_PER_SLIP }
    }

    pub fn see(&mut self, books: Books) {
        self.books = books;
    }

    pub fn record(&mut self) -> Record {
        let mut record = self.plain();
        if self.rng.one_in(self.calls_per_slip) {
            self.slip(&mut record);
        }
        record
    }

    /// A call that is well formed, rightly signed and, where there is something to act on, acts on it.
    fn plain(&mut self) -> Record {
        let settings = &self.books.settings;
        let (admin, caller, paused) = (settings.admin, settings.caller, settings.paused);
        let now = self.now();
        let pool = self.rng.below(u64::from(POOLS)) as u8;
        let operation = if paused && self.rng.one_in(3) {
            8
        } else if caller == 0 && self.rng.one_in(3) {
            9
        } else {
            self.rng.pick(&MIX)
        };
        let mut record = Record { operation, pool, now, signer: admin, ..Record::default() };
        match operation {
            1 => self.stake(&mut record),
            2 => self.withdraw(&mut record),
            3..=5 => {
                record.signer = caller.max(1);
                self.payout(&mut record);
            }
            6 => {
                record.pool = FLAT;
                record.amount = self.rate();
            }
            9 => {
                record.pool = 0;
                record.subject = self.rng.pick(&[2, 3, u64::MAX]);
            }
            _ => record.pool = 0,
        }
        record
    }

    /// A clock that mostly runs on, at times stands or goes back, and seldom shows its last second.
    fn now(&mut self) -> u64 {
        if self.settled && !self.books.stakes.is_empty() && self.rng.one_in(4) {
            let since = self.rng.pick(&self.books.stakes).since;
            return self.rng.pick(&[since, since.saturating_sub(1), since + 1, since + 31_536_000]).min(LAST_TIME);
        }
        let step = self.rng.pick(&[0, 0, 1, 60, 1_576, 1_577, 86_400, 2_592_000, 31_536_000]);
        self.clock = (self.clock + self.rng.below(step + 1)).min(LAST_TIME);
        match self.rng.below(24) {
            0 => self.rng.below(self.clock + 1),
            1 => self.clock.saturating_sub(1),
            2 if self.rng.one_in(4) => self.rng.pick(&[0, LAST_TIME]),
            _ => self.clock,
        }
    }

    fn account(&mut self) -> u64 {
        if self.settled && !self.books.stakes.is_empty() && !self.rng.one_in(4) {
            self.rng.pick(&self.books.stakes).account
        } else if self.crowd > 0 && self.rng.one_in(2) {
            100 + self.rng.below(self.crowd)
        } else {
            self.rng.pick(&ACCOUNTS)
        }
    }

    fn offer(&mut self) -> u64 {
        if self.settled && !self.books.offers.is_empty() && !self.rng.one_in(4) {
            self.rng.pick(&self.books.offers).offer
        } else if self.crowd > 0 && self.rng.one_in(2) {
            100 + self.rng.below(self.crowd)
        } else {
            self.rng.pick(&OFFERS)
        }
    }

    fn stake(&mut self, record: &mut Record) {
        record.subject = self.account();
        record.signer = record.subject;
        record.amount = self.stake_amount(record.pool, record.subject);
    }

    fn withdraw(&mut self, record: &mut Record) {
        let held: Vec<(u8, u64)> =
            self.books.stakes.iter().filter(|row| row.stake > 0).map(|row| (row.pool, row.account)).collect();
        if held.is_empty() || self.rng.one_in(16) {
            record.subject = self.account();
        } else {
            (record.pool, record.subject) = self.rng.pick(&held);
        }
        record.signer = record.subject;
        record.amount = self.withdrawal(record.pool, record.subject);
    }

    fn payout(&mut self, record: &mut Record) {
        let balance = self.books.balances[usize::from(record.pool)];
        let funded: Vec<u8> = (0..POOLS).filter(|pool| self.books.balances[usize::from(*pool)] > 0).collect();
        if balance <= 0 && !funded.is_empty() && !self.rng.one_in(16) {
            record.pool = self.rng.pick(&funded);
        }
        record.subject = self.offer();
        match record.operation {
            3 => {
                record.reply = self.rng.pick(&[2, 2, 2, 2, 2, 2, 2, 2, 0, 1]);
                record.other = self.account();
                record.amount = self.payment(record.pool);
            }
            4 => record.amount = self.reservation(record.pool),
            _ => {
                record.other = self.account();
                let open: Vec<(u8, u64)> = self
                    .books
                    .offers
                    .iter()
                    .filter(|row| row.reserved > row.paid)
                    .map(|row| (row.pool, row.offer))
                    .collect();
                if !open.is_empty() && !self.rng.one_in(16) {
                    (record.pool, record.subject) = self.rng.pick(&open);
                }
                record.amount = self.claim_amount(record.pool, record.subject);
            }
        }
    }
}
