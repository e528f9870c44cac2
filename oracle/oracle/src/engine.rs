//! The nine operations on books that are known to be well formed.

use crate::answer::{Answer, Code, Way};
use crate::books::{self, Books};
use crate::limits::LIMIT;
use crate::module;
use crate::operation::Operation;
use crate::record::Record;
use crate::tables::{Rooms, Tables};
use soroban_sdk::token::Transfer;
use soroban_sdk::Env;

/// The module's environment and the books that it holds, read once after each call.
pub struct Engine {
    env: Env,
    books: Books,
    rooms: Rooms,
}

/// A copy has an environment of its own.
impl Clone for Engine {
    fn clone(&self) -> Engine {
        Engine { env: self.env_at(0), books: self.books.clone(), rooms: self.rooms }
    }
}

impl Engine {
    /// A fresh set.
    pub fn fresh(admin: u64, rooms: Rooms) -> Result<Engine, Code> {
        if admin == 0 {
            Err(Code::Malformed)
        } else if !rooms.lent() {
            Err(Code::BadTables)
        } else {
            Ok(Engine::over(module::construct(admin), rooms))
        }
    }

    pub fn load(tables: &Tables) -> Result<Engine, Code> {
        let books = tables.books().ok_or(Code::BadTables)?;
        Ok(Engine::over(books::write(&books), tables.rooms()))
    }

    fn over(env: Env, rooms: Rooms) -> Engine {
        Engine { books: books::read(&env), env, rooms }
    }

    pub fn books(&self) -> &Books {
        &self.books
    }

    pub fn tables(&self) -> Tables {
        Tables::of(&self.books, self.rooms)
    }

    /// The module's environment at a time, for a look that changes nothing.
    pub(crate) fn env_at(&self, now: u64) -> Env {
        self.env.fork(now)
    }

    pub fn call(&mut self, record: &Record) -> Answer {
        match self.settle(record) {
            Ok((answer, env, books)) => {
                (self.env, self.books) = (env, books);
                answer
            }
            Err(code) => Answer::refusal(code),
        }
    }

    /// Runs the module on a copy, which is thrown away where the call is refused.
    fn settle(&self, record: &Record) -> Result<(Answer, Env, Books), Code> {
        let operation = Operation::of(record).ok_or(Code::Malformed)?;
        let env = self.env.fork(record.now);
        let told = module::run(&env, record.signer, &operation);
        // The limit of an amount comes after pause, payer and signer, and before everything else that the module tests.
        let earlier = matches!(told, Err(Code::Paused | Code::NoPayer | Code::NotAllowed));
        if operation.over_limit() && !earlier {
            return Err(Code::OverLimit);
        }
        let (first, second) = told?;
        let transfers = env.transfers();
        let books = books::read(&env);
        self.within_limits(&books, &transfers)?;
        let answer = Answer {
            transfers: transfers.iter().map(|transfer| way(&env, transfer)).collect(),
            ..Answer::told(narrow(first), narrow(second))
        };
        Ok((answer, env, books))
    }

    /// The added limits that only the outcome shows: figures, then rooms.
    fn within_limits(&self, after: &Books, transfers: &[Transfer]) -> Result<(), Code> {
        // An accrual paid out at once is in no table any more; nothing else moves so much.
        let paid_out = transfers.iter().any(|transfer| transfer.amount > LIMIT);
        let stakes = after.stakes.iter().any(|row| row.stake.abs() > LIMIT || row.accrual > LIMIT);
        let offers = after.offers.iter().any(|row| row.reserved > LIMIT);
        if paid_out || stakes || offers {
            Err(Code::OverLimit)
        } else if after.stakes.len() > self.rooms.stakes || after.offers.len() > self.rooms.offers {
            Err(Code::TableFull)
        } else {
            Ok(())
        }
    }
}

pub(crate) fn way(env: &Env, transfer: &Transfer) -> Way {
    if transfer.from == env.current_contract_address() {
        Way::Out(transfer.to.0, narrow(transfer.amount))
    } else {
        Way::In(transfer.from.0, narrow(transfer.amount))
    }
}

pub(crate) fn narrow(figure: i128) -> i64 {
    figure.try_into().expect("a figure within its limit has 64 bits")
}
