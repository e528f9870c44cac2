//! The queries.

use crate::answer::{Answer, Code};
use crate::books::pool_figures;
use crate::engine::Engine;
use crate::limits::{LAST_TIME, LIMIT, POOLS};
use crate::module::{self, tier};
use insurance::InsuranceContract as Module;
use soroban_sdk::{Address, Env};

#[derive(Clone, Debug, PartialEq, Eq)]
pub enum Question {
    Stake { pool: u64, account: u64 },
    Accrued { pool: u64, account: u64, now: u64 },
    Pool { pool: u64 },
    Count { pool: u64 },
    Offer { pool: u64, offer: u64 },
}

impl Question {
    pub fn malformed(&self) -> bool {
        let (pool, number, now) = match *self {
            Question::Stake { pool, account } => (pool, account, 0),
            Question::Accrued { pool, account, now } => (pool, account, now),
            Question::Pool { pool } | Question::Count { pool } => (pool, 1, 0),
            Question::Offer { pool, offer } => (pool, offer, 0),
        };
        pool >= u64::from(POOLS) || number == 0 || now > LAST_TIME
    }
}

impl Engine {
    pub fn ask(&self, question: &Question) -> Answer {
        if question.malformed() {
            return Answer::refusal(Code::Malformed);
        }
        let (first, second) = match *question {
            Question::Stake { pool, account } => (self.stake(pool as u8, account), 0),
            Question::Accrued { pool, account, now } => (module::accrued(self.env_at(now), pool as u8, account), 0),
            Question::Pool { pool } => pool_figures(&self.env_at(0), pool as u8),
            Question::Count { pool } => (self.count(pool as u8), 0),
            Question::Offer { pool, offer } => self.offer(pool as u8, offer),
        };
        // Added: the module's accrued sum has no limit.
        let accrued = matches!(question, Question::Accrued { .. });
        if accrued && first.abs() > LIMIT {
            return Answer::refusal(Code::OverLimit);
        }
        let narrow = |figure: i128| i64::try_from(figure).expect("a figure of the tables has 64 bits");
        Answer::told(narrow(first), narrow(second))
    }

    fn stake(&self, pool: u8, account: u64) -> i128 {
        let env = self.env_at(0);
        match tier(pool) {
            Some(tier) => Module::get_tier_stake(env, Address(account), tier),
            None => Module::get_stake(env, Address(account)),
        }
    }

    /// The module counts its flat pool only; a tier's count is of its rows.
    fn count(&self, pool: u8) -> i128 {
        match tier(pool) {
            Some(_) => self.books().stakes.iter().filter(|row| row.pool == pool && row.stake != 0).count() as i128,
            None => Module::get_stakers_count(self.env_at(0)).into(),
        }
    }

    fn offer(&self, pool: u8, offer: u64) -> (i128, i128) {
        let rows = &self.books().offers;
        let row = rows.iter().find(|row| (row.pool, row.offer) == (pool, offer));
        row.map_or((0, 0), |row| (row.reserved, row.paid))
    }
}

/// The number of the pool that the module recommends.
pub fn assess_risk(age: u64, repayments: u32, defaults: u32, amount: i64) -> u8 {
    Module::assess_risk(Env::default(), age, repayments, defaults, amount.into()) as u8
}
