//! Why a record, or a row, is no call.

use crate::form::{Form, Slot, RATE};
use crate::limits::LAST_TIME;
use crate::pool::{Pool, Reply};
use crate::record::Record;
use crate::row::Row;
use std::fmt;

/// The first thing that makes a record, or that of a row, Malformed. The library is the judge of that, and agrees; this says it in words.
#[derive(Clone, Copy, Debug, PartialEq, Eq)]
pub enum Flaw {
    UnknownOperation(u64),
    SpareBytes([u8; 5]),
    UnknownPool(u64),
    UnknownReply(u64),
    TimeTooLarge(u64),
    /// A number is 0 where one is needed; its name.
    NoNumber(&'static str),
    /// A field that the operation does not use is not 0; the operation's name and the field's.
    Unused(&'static str, &'static str),
    RateOfTier(u64),
    NegativeRate(i64),
}

impl Flaw {
    /// None where the record is a call.
    pub fn of(record: &Record) -> Option<Flaw> {
        match Flaw::of_row(&record.fields()) {
            Some(Flaw::UnknownOperation(number)) => Some(Flaw::UnknownOperation(number)),
            _ if record.spare != [0; 5] => Some(Flaw::SpareBytes(record.spare)),
            flaw => flaw,
        }
    }

    /// None where the row is a call.
    pub fn of_row(row: &Row) -> Option<Flaw> {
        let Some(form) = u8::try_from(row.operation).ok().and_then(Form::of) else {
            return Some(Flaw::UnknownOperation(row.operation));
        };
        unused(row, form).or_else(|| form.fields.iter().find_map(|field| wrong(row, *field))).or(wrong_rate(row))
    }
}

fn unused(row: &Row, form: &Form) -> Option<Flaw> {
    let fields = [
        (Slot::Pool, "pool", row.pool != 0),
        (Slot::Reply, "reply", row.reply != 0),
        (Slot::Subject, "subject", row.subject != 0),
        (Slot::Other, "other", row.other != 0),
        (Slot::Amount, "amount", row.amount != 0),
    ];
    let given = |&(slot, _, not_zero): &(Slot, &'static str, bool)| not_zero && form.name_of(slot).is_none();
    fields.into_iter().find(given).map(|(_, name, _)| Flaw::Unused(form.name, name))
}

/// What is wrong with a field that the operation uses.
fn wrong(row: &Row, (name, slot): (&'static str, Slot)) -> Option<Flaw> {
    let no_number = |number: u64| (number == 0).then_some(Flaw::NoNumber(name));
    match slot {
        Slot::Pool if Pool::from_word(row.pool).is_none() => Some(Flaw::UnknownPool(row.pool)),
        Slot::Reply if Reply::from_word(row.reply).is_none() => Some(Flaw::UnknownReply(row.reply)),
        Slot::Now if row.now > LAST_TIME => Some(Flaw::TimeTooLarge(row.now)),
        Slot::Signer => no_number(row.signer),
        Slot::Subject => no_number(row.subject),
        Slot::Other => no_number(row.other),
        _ => None,
    }
}

fn wrong_rate(row: &Row) -> Option<Flaw> {
    if row.operation != RATE.into() {
        None
    } else if row.pool != Pool::Flat.number().into() {
        Some(Flaw::RateOfTier(row.pool))
    } else {
        (row.amount < 0).then_some(Flaw::NegativeRate(row.amount))
    }
}

impl fmt::Display for Flaw {
    fn fmt(&self, f: &mut fmt::Formatter) -> fmt::Result {
        match self {
            Flaw::UnknownOperation(number) => write!(f, "operation {number} is none of 1 to 9"),
            Flaw::SpareBytes(bytes) => write!(f, "the five bytes after the reply are {bytes:?} and have to be 0"),
            Flaw::UnknownPool(number) => write!(f, "pool {number} is none of 0 to 3"),
            Flaw::UnknownReply(number) => write!(f, "reply {number} is none of 0 to 2"),
            Flaw::TimeTooLarge(time) => write!(f, "now {time} is above {LAST_TIME}"),
            Flaw::NoNumber(name) => write!(f, "{name} is 0, which is no number"),
            Flaw::Unused(operation, field) => write!(f, "{operation} does not use {field}, which is not 0"),
            Flaw::RateOfTier(pool) => write!(f, "a rate is of the flat pool, and pool {pool} is another"),
            Flaw::NegativeRate(rate) => write!(f, "rate {rate} is below 0"),
        }
    }
}

impl std::error::Error for Flaw {}
