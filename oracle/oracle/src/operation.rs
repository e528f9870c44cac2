//! A record read as an operation with its own named fields.

use crate::limits::{FLAT, GREATEST_RATE, LAST_TIME, LIMIT, POOLS};
use crate::record::Record;

#[derive(Clone, Debug, PartialEq, Eq)]
pub enum Operation {
    Stake { pool: u8, staker: u64, amount: i64 },
    Withdraw { pool: u8, staker: u64, amount: i64 },
    Pay { pool: u8, reply: u8, invoice: u64, beneficiary: u64, amount: i64 },
    Reserve { pool: u8, offer: u64, amount: i64 },
    Claim { pool: u8, offer: u64, lender: u64, amount: i64 },
    Rate { rate: i64 },
    Pause,
    Unpause,
    PayoutCaller { caller: u64 },
}

/// Which fields an operation uses; the others must be 0. `now` and `signer` are of every call.
struct Uses {
    pool: bool,
    reply: bool,
    subject: bool,
    other: bool,
    amount: bool,
}

impl Operation {
    /// None where the record is Malformed.
    pub fn of(record: &Record) -> Option<Operation> {
        let uses = uses(record.operation)?;
        let fields = [
            (uses.pool, record.pool < POOLS, record.pool == 0),
            (uses.reply, record.reply <= 2, record.reply == 0),
            (uses.subject, record.subject != 0, record.subject == 0),
            (uses.other, record.other != 0, record.other == 0),
            (uses.amount, true, record.amount == 0),
        ];
        let formed = fields.iter().all(|&(used, good, zero)| if used { good } else { zero });
        if !formed || record.spare != [0; 5] || record.now > LAST_TIME || record.signer == 0 {
            return None;
        }
        let &Record { pool, reply, subject, other, amount, .. } = record;
        match record.operation {
            1 => Some(Operation::Stake { pool, staker: subject, amount }),
            2 => Some(Operation::Withdraw { pool, staker: subject, amount }),
            3 => Some(Operation::Pay { pool, reply, invoice: subject, beneficiary: other, amount }),
            4 => Some(Operation::Reserve { pool, offer: subject, amount }),
            5 => Some(Operation::Claim { pool, offer: subject, lender: other, amount }),
            6 if pool == FLAT && amount >= 0 => Some(Operation::Rate { rate: amount }),
            7 => Some(Operation::Pause),
            8 => Some(Operation::Unpause),
            9 => Some(Operation::PayoutCaller { caller: subject }),
            _ => None,
        }
    }

    /// "rate above its limit; amount above 10^15, except in a withdrawal"
    pub fn over_limit(&self) -> bool {
        match *self {
            Operation::Stake { amount, .. }
            | Operation::Pay { amount, .. }
            | Operation::Reserve { amount, .. }
            | Operation::Claim { amount, .. } => i128::from(amount) > LIMIT,
            Operation::Rate { rate } => rate > GREATEST_RATE,
            _ => false,
        }
    }
}

fn uses(operation: u8) -> Option<Uses> {
    let (pool, reply, subject, other, amount) = match operation {
        1 | 2 | 4 => (true, false, true, false, true),
        3 => (true, true, true, true, true),
        5 => (true, false, true, true, true),
        6 => (true, false, false, false, true),
        7 | 8 => (false, false, false, false, false),
        9 => (false, false, true, false, false),
        _ => return None,
    };
    Some(Uses { pool, reply, subject, other, amount })
}
