//! The module alone on one environment: no copy, none of the added limits and rooms. It shows what the added rules change, and the
//! module's own speed.

use crate::answer::{Answer, Code};
use crate::books;
use crate::engine::{narrow, way};
use crate::module;
use crate::operation::Operation;
use crate::record::Record;
use crate::tables::Tables;
use insurance::InsuranceContract as Module;
use soroban_sdk::Env;

pub struct Bare {
    env: Env,
}

/// A copy has an environment of its own.
impl Clone for Bare {
    fn clone(&self) -> Bare {
        Bare { env: self.env.fork(0) }
    }
}

impl Bare {
    pub fn fresh(admin: u64) -> Bare {
        Bare { env: module::construct(admin) }
    }

    /// None where the tables are not well formed.
    pub fn load(tables: &Tables) -> Option<Bare> {
        Some(Bare { env: books::write(&tables.books()?) })
    }

    pub fn accrued(&self, pool: u8, account: u64, now: u64) -> i128 {
        module::accrued(self.env.fork(now), pool, account)
    }

    /// The yield and the payout cap that the module's pool query tells, in basis points; None for the flat pool, which it does not know.
    pub fn terms(&self, pool: u8) -> Option<(u32, u32)> {
        module::tier(pool).map(|tier| {
            let pool = Module::get_pool(self.env.fork(0), tier);
            (pool.apy_bps, pool.payout_cap_bps)
        })
    }

    pub fn call(&mut self, record: &Record) -> Answer {
        self.call_at(record, record.now)
    }

    /// The record's call at any time, since the module's clock has no last second. The module tests before it writes, so a refused call
    /// leaves nothing behind.
    pub fn call_at(&mut self, record: &Record, now: u64) -> Answer {
        let Some(operation) = Operation::of(record) else {
            return Answer::refusal(Code::Malformed);
        };
        self.env.begin(now);
        match module::run(&self.env, record.signer, &operation) {
            Ok((first, second)) => {
                let transfers = self.env.transfers().iter().map(|transfer| way(&self.env, transfer)).collect();
                Answer { transfers, ..Answer::told(narrow(first), narrow(second)) }
            }
            Err(code) => Answer::refusal(code),
        }
    }
}
