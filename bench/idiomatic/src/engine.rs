//! The nine operations.

use crate::answer::{Answer, Code, Way};
use crate::pool::{Offer, Pool, Stake};
use crate::record::Record;
use crate::{FLAT, GREATEST_RATE, LEAST_STAKE, LIMIT};

/// Yield and payout cap of the tiers in basis points.
const TIERS: [(u32, i64); 3] = [(200, 5_000), (500, 7_500), (1_000, 10_000)];

const BASIS_POINTS: i128 = 10_000;

/// A payout caller of 0 is none.
#[derive(Clone, Copy, Debug)]
pub struct Settings {
    pub admin: u64,
    pub caller: u64,
    pub paused: bool,
    pub rate: u32,
}

#[derive(Clone, Debug)]
pub struct Engine {
    pub pools: [Pool; 4],
    pub settings: Settings,
    pub stake_rooms: usize,
    pub offer_rooms: usize,
    left: Vec<i64>,
}

impl Engine {
    pub fn fresh(admin: u64, stake_rooms: usize, offer_rooms: usize) -> Engine {
        let settings = Settings { admin, caller: 0, paused: false, rate: 0 };
        Engine { pools: Default::default(), settings, stake_rooms, offer_rooms, left: Vec::with_capacity(stake_rooms) }
    }

    /// Runs whole records and appends their text; answers the number of the last.
    pub fn replay(&mut self, records: &[u8], before: u64, out: &mut Vec<u8>) -> u64 {
        let mut number = before;
        for bytes in records.as_chunks::<{ Record::LENGTH }>().0 {
            number += 1;
            self.call(&Record::from_bytes(bytes)).print(number, out);
        }
        number
    }

    pub fn call(&mut self, record: &Record) -> Answer {
        let told = if record.well_formed() { self.run(record) } else { Err(Code::Malformed) };
        told.unwrap_or_else(Answer::refused)
    }

    fn run(&mut self, record: &Record) -> Result<Answer, Code> {
        let Settings { admin, caller, paused, .. } = self.settings;
        let free_of_pause = matches!(record.operation, 7 | 8) || (record.operation == 2 && record.pool == FLAT);
        if paused && !free_of_pause {
            return Err(Code::Paused);
        }
        let signer = match record.operation {
            1 | 2 => record.subject,
            3..=5 if caller == 0 => return Err(Code::NoPayer),
            3..=5 => caller,
            _ => admin,
        };
        if record.signer != signer {
            return Err(Code::NotAllowed);
        }
        if record.operation <= 5 && record.amount <= 0 {
            return Err(Code::InvalidInput);
        }
        if matches!(record.operation, 1 | 3..=5) && record.amount > LIMIT {
            return Err(Code::OverLimit);
        }
        match record.operation {
            1 => self.stake(record),
            2 => self.withdraw(record),
            3 => self.pay(record),
            4 => self.reserve(record),
            5 => self.claim(record),
            6 => self.set_rate(record),
            _ => {
                match record.operation {
                    7 => self.settings.paused = true,
                    8 => self.settings.paused = false,
                    _ => self.settings.caller = record.subject,
                }
                Ok(Answer::done(0, 0, Way::None))
            }
        }
    }

    fn pool(&mut self, record: &Record) -> &mut Pool {
        &mut self.pools[usize::from(record.pool)]
    }

    fn rate_of(&self, pool: u8) -> u32 {
        if pool == FLAT {
            self.settings.rate
        } else {
            TIERS[usize::from(pool)].0
        }
    }

    fn stake(&mut self, record: &Record) -> Result<Answer, Code> {
        let Record { now, subject: account, amount, .. } = *record;
        let rate = self.rate_of(record.pool);
        let full = self.pools.iter().map(|pool| pool.stakes.len()).sum::<usize>() == self.stake_rooms;
        let pool = self.pool(record);
        let place = pool.stake_of(account);
        let old = place.map_or(Stake { account, ..Stake::default() }, |at| pool.stakes[at]);
        let stake = old.stake + amount;
        if stake < LEAST_STAKE {
            return Err(Code::InvalidInput);
        }
        let accrual = old.banked(rate, now)?;
        if stake > LIMIT {
            return Err(Code::OverLimit);
        }
        let row = Stake { account, stake, since: now, accrual };
        match place {
            Ok(at) => pool.stakes[at] = row,
            Err(_) if full => return Err(Code::TableFull),
            Err(at) => pool.stakes.insert(at, row),
        }
        pool.balance += amount;
        Ok(Answer::done(0, 0, Way::In(account, amount)))
    }

    fn withdraw(&mut self, record: &Record) -> Result<Answer, Code> {
        let Record { now, subject: account, amount, .. } = *record;
        let rate = self.rate_of(record.pool);
        let pool = self.pool(record);
        let at = pool.stake_of(account).map_err(|_| Code::InsufficientBalance)?;
        let row = &mut pool.stakes[at];
        if row.stake < amount {
            return Err(Code::InsufficientBalance);
        }
        let accrual = row.banked(rate, now)?;
        if row.stake == amount {
            pool.stakes.remove(at);
        } else {
            (row.stake, row.since, row.accrual) = (row.stake - amount, now, 0);
        }
        pool.balance -= amount;
        let mut answer = Answer::done(0, 0, Way::Out(account, amount));
        if accrual > 0 {
            answer.ways[1] = Way::Out(account, accrual);
        }
        Ok(answer)
    }

    /// What the pool's cap leaves of an amount.
    fn capped(record: &Record) -> i64 {
        match TIERS.get(usize::from(record.pool)) {
            Some((_, cap)) => (i128::from(record.amount) * i128::from(*cap) / BASIS_POINTS) as i64,
            None => record.amount,
        }
    }

    fn pay(&mut self, record: &Record) -> Result<Answer, Code> {
        match record.reply {
            0 => return Err(Code::NoRegistry),
            1 => return Err(Code::InvalidTransition),
            _ => {}
        }
        let pool = &mut self.pools[usize::from(record.pool)];
        let payout = Engine::capped(record).min(pool.balance);
        if payout <= 0 {
            return Ok(Answer::done(0, 0, Way::None));
        }
        pool.share_loss(payout, &mut self.left)?;
        Ok(Answer::done(payout, 0, Way::Out(record.other, payout)))
    }

    fn reserve(&mut self, record: &Record) -> Result<Answer, Code> {
        let offer = record.subject;
        let full = self.pools.iter().map(|pool| pool.offers.len()).sum::<usize>() == self.offer_rooms;
        let pool = self.pool(record);
        let place = pool.offer_of(offer);
        let old = place.map_or(Offer { offer, ..Offer::default() }, |at| pool.offers[at]);
        let granted = if record.pool == FLAT { 0 } else { old.reserved };
        let grant = (Engine::capped(record) - granted).min(pool.balance - pool.unpaid);
        if grant <= 0 {
            return Ok(Answer::done(0, 0, Way::None));
        }
        let reserved = old.reserved + grant;
        if reserved > LIMIT {
            return Err(Code::OverLimit);
        }
        match place {
            Ok(at) => pool.offers[at].reserved = reserved,
            Err(_) if full => return Err(Code::TableFull),
            Err(at) => pool.offers.insert(at, Offer { reserved, ..old }),
        }
        pool.unpaid += grant;
        Ok(Answer::done(grant, 0, Way::None))
    }

    fn claim(&mut self, record: &Record) -> Result<Answer, Code> {
        let pool = &mut self.pools[usize::from(record.pool)];
        let at = pool.offer_of(record.subject).map_err(|_| Code::InsufficientBalance)?;
        let cover = pool.offers[at].reserved - pool.offers[at].paid;
        if cover == 0 {
            return Err(Code::InsufficientBalance);
        }
        let others = if record.pool == FLAT { pool.unpaid - cover } else { 0 };
        let paid = record.amount.min(cover).min(pool.balance - others);
        if paid <= 0 {
            return Ok(Answer::done(0, cover, Way::None));
        }
        pool.share_loss(paid, &mut self.left)?;
        pool.offers[at].paid += paid;
        pool.unpaid -= paid;
        Ok(Answer::done(paid, cover - paid, Way::Out(record.other, paid)))
    }

    fn set_rate(&mut self, record: &Record) -> Result<Answer, Code> {
        if record.amount > GREATEST_RATE {
            return Err(Code::OverLimit);
        }
        let (rate, now) = (self.settings.rate, record.now);
        let stakes = &mut self.pools[usize::from(FLAT)].stakes;
        self.left.clear();
        for row in stakes.iter() {
            self.left.push(row.banked(rate, now)?);
        }
        for (row, accrual) in stakes.iter_mut().zip(&self.left) {
            if row.stake != 0 {
                (row.since, row.accrual) = (now, *accrual);
            }
        }
        self.settings.rate = record.amount as u32;
        Ok(Answer::done(0, 0, Way::None))
    }
}
