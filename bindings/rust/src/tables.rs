//! The tables that the engine works on, in memory of this crate.

use crate::answer::{Answer, ANSWER_WORDS};
use crate::books::{Books, OfferFigures, OfferRow, PoolFigures, Settings, StakeRow};
use crate::call::Call;
use crate::code::Code;
use crate::face::{self, Lent, Question, Shown};
use crate::limits::{MOST_OFFERS, MOST_STAKES};
use crate::lookup::{Lookup, LOOKUP_WORDS};
use crate::numbers::{Account, Offer};
use crate::pool::Pool;

const STAKE_WORDS: usize = 5;
const OFFER_WORDS: usize = 4;
const BOOKS_WORDS: usize = 12;

/// How many rows of each kind are lent.
#[derive(Clone, Copy, Debug, PartialEq, Eq)]
pub struct Rooms {
    pub stakes: usize,
    pub offers: usize,
}

impl Rooms {
    /// The most that may be lent, and what a replay has.
    pub const FULL: Rooms = Rooms { stakes: MOST_STAKES, offers: MOST_OFFERS };
}

/// Stakes, offers and figures as the words that the engine reads and writes.
///
/// Words from elsewhere are taken as they are. The engine tests them at each call, and refuses what is not well formed:
///
/// ```
/// use pasumorip::{Account, Code, Pool, Rooms, Tables};
///
/// let (stakes, offers, mut books) = Tables::fresh(Rooms { stakes: 8, offers: 4 }, Account(1))?.into_words();
/// books[0] = 5; // a balance without a stake
/// let tables = Tables::from_words(stakes, offers, books);
/// assert_eq!(tables.pool(Pool::Flat), Err(Code::BadTables));
/// # Ok::<(), Code>(())
/// ```
#[derive(Clone, Debug, PartialEq, Eq)]
pub struct Tables {
    stakes: Vec<u64>,
    offers: Vec<u64>,
    books: Vec<u64>,
}

impl Tables {
    /// A fresh set: every row and figure cleared, no payout caller, unpaused, rate 0. Refused for admin 0 or rooms outside their limits.
    pub fn fresh(rooms: Rooms, admin: Account) -> Result<Tables, Code> {
        Tables::lent(rooms, |tables| face::fresh(tables, admin.0))
    }

    /// A fresh set for the log that has this head. Refused for a head that is short or wrong.
    pub fn open(rooms: Rooms, head: &[u8]) -> Result<Tables, Code> {
        Tables::lent(rooms, |tables| face::open(tables, head))
    }

    fn lent(rooms: Rooms, begin: impl FnOnce(Lent) -> u8) -> Result<Tables, Code> {
        // One row too many is as much too many as any number is, and needs no more memory.
        let stakes = vec![0; STAKE_WORDS * rooms.stakes.min(MOST_STAKES + 1)];
        let offers = vec![0; OFFER_WORDS * rooms.offers.min(MOST_OFFERS + 1)];
        let mut tables = Tables { stakes, offers, books: vec![0; BOOKS_WORDS] };
        Code::told(begin(tables.lend()).into()).done()?;
        Ok(tables)
    }

    /// Tables of any words: rows of 5 for stakes (pool, account, stake, since, accrual), rows of 4 for offers (pool, offer, reserved,
    /// paid), and 12 for the books (balances of the four pools, unpaid reserved sums of the four, admin, payout caller, paused, rate).
    pub fn from_words(stakes: Vec<u64>, offers: Vec<u64>, books: Vec<u64>) -> Tables {
        Tables { stakes, offers, books }
    }

    /// The words back: stakes, offers, books.
    pub fn into_words(self) -> (Vec<u64>, Vec<u64>, Vec<u64>) {
        (self.stakes, self.offers, self.books)
    }

    /// The words: stakes, offers, books.
    pub fn words(&self) -> (&[u64], &[u64], &[u64]) {
        (&self.stakes, &self.offers, &self.books)
    }

    pub fn rooms(&self) -> Rooms {
        Rooms { stakes: self.stakes.len() / STAKE_WORDS, offers: self.offers.len() / OFFER_WORDS }
    }

    /// Makes a call.
    pub fn apply(&mut self, call: &Call) -> Answer {
        self.apply_record(&call.to_bytes())
    }

    /// Makes the call that a log's record stands for. Any bytes of any length will do: what is no call is Malformed.
    pub fn apply_record(&mut self, record: &[u8]) -> Answer {
        let mut words = [0; ANSWER_WORDS];
        // The code stands in the words too.
        face::apply(self.lend(), record, &mut words);
        Answer::from_words(words)
    }

    /// An account's stake in a pool.
    pub fn stake(&self, pool: Pool, account: Account) -> Result<i64, Code> {
        self.ask(1, pool, account.0, 0).map(|(stake, _)| stake)
    }

    /// An account's yield in a pool at a time: what is banked and what runs since, added up. For a stake below zero what runs is below
    /// zero too, and so can the sum be; for a stake of 0 it is the banked sum alone. Refused with [`Code::OverLimit`] beyond plus or
    /// minus 10^15.
    ///
    /// ```
    /// use pasumorip::{Account, Pool, Tables};
    ///
    /// // A stake of -1 in the Aggressive pool, since 0, with nothing banked.
    /// let (stakes, offers) = (vec![2, 7, -1i64 as u64, 0, 0], vec![0; 4]);
    /// let tables = Tables::from_words(stakes, offers, vec![0, 0, -1i64 as u64, 0, 0, 0, 0, 0, 1, 0, 0, 0]);
    /// assert_eq!(tables.accrued(Pool::Aggressive, Account(7), 315_360_000), Ok(-1));
    /// // Rounded toward zero.
    /// assert_eq!(tables.accrued(Pool::Aggressive, Account(7), 315_359_999), Ok(0));
    /// ```
    pub fn accrued(&self, pool: Pool, account: Account, now: u64) -> Result<i64, Code> {
        self.ask(2, pool, account.0, now).map(|(accrued, _)| accrued)
    }

    pub fn pool(&self, pool: Pool) -> Result<PoolFigures, Code> {
        self.ask(3, pool, 0, 0).map(|(balance, unpaid)| PoolFigures { balance, unpaid })
    }

    /// How many accounts have a stake in a pool.
    pub fn stakers_count(&self, pool: Pool) -> Result<u64, Code> {
        self.ask(4, pool, 0, 0).map(|(count, _)| count as u64)
    }

    /// What is reserved for an offer in a pool, and what of it is paid.
    pub fn offer(&self, pool: Pool, offer: Offer) -> Result<OfferFigures, Code> {
        self.ask(5, pool, offer.0, 0).map(|(reserved, paid)| OfferFigures { reserved, paid })
    }

    fn ask(&self, kind: u64, pool: Pool, number: u64, time: u64) -> Result<(i64, i64), Code> {
        let question = Question { kind, pool: pool.number().into(), number, time };
        let mut words = [0; 3];
        Code::told(face::query(self.show(), question, &mut words).into()).done()?;
        let [_, first, second] = words;
        Ok((first as i64, second as i64))
    }

    /// Where an account's stake row is in a pool, or would be, and how many rows were read to tell it.
    ///
    /// ```
    /// use pasumorip::{Account, Lookup, Place, Pool, Tables};
    ///
    /// // Accounts 7, 8 and 9 in the Balanced pool, and a row that is not used.
    /// let row = |account| [1, account, 1_000_000, 0, 0];
    /// let stakes = [row(7), row(8), row(9), [0; 5]].concat();
    /// let tables = Tables::from_words(stakes, vec![0; 4], vec![0, 3_000_000, 0, 0, 0, 0, 0, 0, 1, 0, 0, 0]);
    /// // 3 has two binary digits.
    /// let row = tables.look_up_stake(Pool::Balanced, Account(7));
    /// assert_eq!(row, Ok(Lookup { place: Place::Row(0), reads: 2 }));
    /// let none = tables.look_up_stake(Pool::Aggressive, Account(7));
    /// assert_eq!(none, Ok(Lookup { place: Place::Gap(3), reads: 2 }));
    /// ```
    pub fn look_up_stake(&self, pool: Pool, account: Account) -> Result<Lookup, Code> {
        self.look_up(face::look_up_stake, pool, account.0)
    }

    /// Where an offer's row is in a pool, or would be, and how many rows were read to tell it.
    pub fn look_up_offer(&self, pool: Pool, offer: Offer) -> Result<Lookup, Code> {
        self.look_up(face::look_up_offer, pool, offer.0)
    }

    fn look_up(&self, ask: fn(Shown, u64, u64, &mut [u64]) -> u8, pool: Pool, number: u64) -> Result<Lookup, Code> {
        let mut words = [0; LOOKUP_WORDS];
        Code::told(ask(self.show(), pool.number().into(), number, &mut words).into()).done()?;
        Ok(Lookup::from_words(words))
    }

    /// Everything that the tables hold, where they are well formed.
    pub fn books(&self) -> Result<Books, Code> {
        // Any query has the tables tested; words of well-formed tables have the meanings below.
        self.pool(Pool::Flat)?;
        Ok(self.read().expect("well-formed tables hold books"))
    }

    fn read(&self) -> Option<Books> {
        let stakes = self.stakes.chunks_exact(STAKE_WORDS).take_while(|row| row[1] != 0).map(stake_row);
        let offers = self.offers.chunks_exact(OFFER_WORDS).take_while(|row| row[1] != 0).map(offer_row);
        let &[a, b, c, d, ua, ub, uc, ud, admin, caller, paused, rate] = &self.books[..] else { return None };
        let figures = |(balance, unpaid): (u64, u64)| PoolFigures { balance: balance as i64, unpaid: unpaid as i64 };
        Some(Books {
            stakes: stakes.collect::<Option<_>>()?,
            offers: offers.collect::<Option<_>>()?,
            pools: [(a, ua), (b, ub), (c, uc), (d, ud)].map(figures),
            settings: Settings {
                admin: Account(admin),
                payout_caller: (caller != 0).then_some(Account(caller)),
                paused: paused != 0,
                rate: rate as i64,
            },
        })
    }

    fn show(&self) -> Shown<'_> {
        Shown { stakes: &self.stakes, offers: &self.offers, books: &self.books }
    }

    pub(crate) fn lend(&mut self) -> Lent<'_> {
        Lent { stakes: &mut self.stakes, offers: &mut self.offers, books: &mut self.books }
    }
}

fn stake_row(words: &[u64]) -> Option<StakeRow> {
    let &[pool, account, stake, since, accrual] = words else { return None };
    let (stake, accrual) = (stake as i64, accrual as i64);
    Some(StakeRow { pool: Pool::from_word(pool)?, account: Account(account), stake, since, accrual })
}

fn offer_row(words: &[u64]) -> Option<OfferRow> {
    let &[pool, offer, reserved, paid] = words else { return None };
    let figures = OfferFigures { reserved: reserved as i64, paid: paid as i64 };
    Some(OfferRow { pool: Pool::from_word(pool)?, offer: Offer(offer), figures })
}
