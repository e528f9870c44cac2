//! Calls: a time, a signer and an operation with its own named fields.

use crate::flaw::Flaw;
use crate::form;
use crate::numbers::{Account, Invoice, Offer};
use crate::pool::{Pool, Reply};
use crate::record::{Record, RECORD_BYTES};
use crate::row::Row;

/// One call on the books.
///
/// ```
/// use pasumorip::{Account, Call, Offer, Operation, Pool};
///
/// let claim = Operation::Claim { pool: Pool::Balanced, offer: Offer(12), lender: Account(7), amount: 250_000 };
/// let call = Call { now: 1_700_000_000, signer: Account(3), operation: claim };
/// assert_eq!(Call::from_bytes(&call.to_bytes()), Ok(call));
/// ```
#[derive(Clone, Copy, Debug, PartialEq, Eq)]
pub struct Call {
    /// The time, in seconds.
    pub now: u64,
    pub signer: Account,
    pub operation: Operation,
}

#[derive(Clone, Copy, Debug, PartialEq, Eq)]
pub enum Operation {
    Stake {
        pool: Pool,
        staker: Account,
        amount: i64,
    },
    Withdraw {
        pool: Pool,
        staker: Account,
        amount: i64,
    },
    Pay {
        pool: Pool,
        reply: Reply,
        invoice: Invoice,
        beneficiary: Account,
        amount: i64,
    },
    Reserve {
        pool: Pool,
        offer: Offer,
        amount: i64,
    },
    Claim {
        pool: Pool,
        offer: Offer,
        lender: Account,
        amount: i64,
    },
    /// Sets the flat pool's rate, in basis points.
    Rate {
        rate: i64,
    },
    Pause,
    Unpause,
    PayoutCaller {
        caller: Account,
    },
}

impl Call {
    /// The call's record, of any call, a Malformed one too, which the engine judges; [`write_call`](crate::log::write_call) refuses what is
    /// Malformed.
    pub fn to_bytes(&self) -> [u8; RECORD_BYTES] {
        self.record().to_bytes()
    }

    /// The call that a record stands for, or why it is none.
    pub fn from_bytes(bytes: &[u8; RECORD_BYTES]) -> Result<Call, Flaw> {
        Call::from_record(&Record::from_bytes(bytes))
    }

    /// The call as a row of a database.
    pub fn row(&self) -> Row {
        self.record().fields()
    }

    pub fn record(&self) -> Record {
        let plain = Record { now: self.now, signer: self.signer.0, ..Record::default() };
        match self.operation {
            Operation::Stake { pool, staker, amount } => {
                Record { operation: form::STAKE, pool: pool.number(), subject: staker.0, amount, ..plain }
            }
            Operation::Withdraw { pool, staker, amount } => {
                Record { operation: form::WITHDRAW, pool: pool.number(), subject: staker.0, amount, ..plain }
            }
            Operation::Pay { pool, reply, invoice, beneficiary, amount } => Record {
                operation: form::PAY,
                pool: pool.number(),
                reply: reply.number(),
                subject: invoice.0,
                other: beneficiary.0,
                amount,
                ..plain
            },
            Operation::Reserve { pool, offer, amount } => {
                Record { operation: form::RESERVE, pool: pool.number(), subject: offer.0, amount, ..plain }
            }
            Operation::Claim { pool, offer, lender, amount } => Record {
                operation: form::CLAIM,
                pool: pool.number(),
                subject: offer.0,
                other: lender.0,
                amount,
                ..plain
            },
            Operation::Rate { rate } => {
                Record { operation: form::RATE, pool: Pool::Flat.number(), amount: rate, ..plain }
            }
            Operation::Pause => Record { operation: form::PAUSE, ..plain },
            Operation::Unpause => Record { operation: form::UNPAUSE, ..plain },
            Operation::PayoutCaller { caller } => Record { operation: form::PAYOUT_CALLER, subject: caller.0, ..plain },
        }
    }

    pub fn from_record(record: &Record) -> Result<Call, Flaw> {
        if let Some(flaw) = Flaw::of(record) {
            return Err(flaw);
        }
        // A record without a flaw has a pool from 0 to 3 and a reply from 0 to 2, used or not.
        let pool = Pool::from_number(record.pool).ok_or(Flaw::UnknownPool(record.pool.into()))?;
        let reply = Reply::from_number(record.reply).ok_or(Flaw::UnknownReply(record.reply.into()))?;
        let Record { subject, other, amount, .. } = *record;
        let operation = match record.operation {
            form::STAKE => Operation::Stake { pool, staker: Account(subject), amount },
            form::WITHDRAW => Operation::Withdraw { pool, staker: Account(subject), amount },
            form::PAY => Operation::Pay { pool, reply, invoice: Invoice(subject), beneficiary: Account(other), amount },
            form::RESERVE => Operation::Reserve { pool, offer: Offer(subject), amount },
            form::CLAIM => Operation::Claim { pool, offer: Offer(subject), lender: Account(other), amount },
            form::RATE => Operation::Rate { rate: amount },
            form::PAUSE => Operation::Pause,
            form::UNPAUSE => Operation::Unpause,
            form::PAYOUT_CALLER => Operation::PayoutCaller { caller: Account(subject) },
            unknown => return Err(Flaw::UnknownOperation(unknown.into())),
        };
        Ok(Call { now: record.now, signer: Account(record.signer), operation })
    }
}
