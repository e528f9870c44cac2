//! Answers: a code, two numbers and at most two transfers.

use crate::code::Code;
use crate::numbers::Account;

/// The answer to a call. A refusal has zeros and no transfer, and the tables are as before.
#[derive(Clone, Copy, Debug, PartialEq, Eq)]
pub struct Answer {
    pub code: Code,
    /// What was paid or granted.
    pub first: i64,
    /// The cover left after a claim.
    pub second: i64,
    /// The transfers now due, in their order.
    pub transfers: [Option<Transfer>; 2],
}

/// Money that is due between an account and the pools.
#[derive(Clone, Copy, Debug, PartialEq, Eq)]
pub struct Transfer {
    pub direction: Direction,
    pub account: Account,
    pub amount: i64,
}

#[derive(Clone, Copy, Debug, PartialEq, Eq)]
pub enum Direction {
    /// From the account into the pool.
    In,
    /// Out of the pool to the account.
    Out,
}

/// Code, two numbers, and direction, account and amount of two transfers.
pub(crate) const ANSWER_WORDS: usize = 9;

impl Answer {
    pub(crate) fn from_words(words: [u64; ANSWER_WORDS]) -> Answer {
        let [code, first, second, due @ ..] = words;
        let [direction, account, amount, next_direction, next_account, next_amount] = due;
        Answer {
            code: Code::told(code),
            first: first as i64,
            second: second as i64,
            transfers: [transfer([direction, account, amount]), transfer([next_direction, next_account, next_amount])],
        }
    }

    /// The transfers that there are.
    pub fn moved(&self) -> impl Iterator<Item = Transfer> {
        self.transfers.into_iter().flatten()
    }
}

fn transfer([direction, account, amount]: [u64; 3]) -> Option<Transfer> {
    let direction = match direction {
        0 => return None,
        1 => Direction::In,
        2 => Direction::Out,
        other => panic!("the library answered the direction {other}"),
    };
    Some(Transfer { direction, account: Account(account), amount: amount as i64 })
}
