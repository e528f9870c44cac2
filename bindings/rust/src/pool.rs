//! The pools, and the registry's replies.

use crate::face;

/// A pool, by its number.
#[derive(Clone, Copy, Debug, PartialEq, Eq, PartialOrd, Ord, Hash)]
#[repr(u8)]
pub enum Pool {
    Conservative = 0,
    Balanced = 1,
    Aggressive = 2,
    Flat = 3,
}

impl Pool {
    pub const ALL: [Pool; 4] = [Pool::Conservative, Pool::Balanced, Pool::Aggressive, Pool::Flat];

    pub fn from_number(number: u8) -> Option<Pool> {
        Pool::ALL.get(usize::from(number)).copied()
    }

    pub(crate) fn from_word(word: u64) -> Option<Pool> {
        u8::try_from(word).ok().and_then(Pool::from_number)
    }

    pub fn number(self) -> u8 {
        self as u8
    }

    pub fn name(self) -> &'static str {
        match self {
            Pool::Conservative => "Conservative",
            Pool::Balanced => "Balanced",
            Pool::Aggressive => "Aggressive",
            Pool::Flat => "flat",
        }
    }
}

/// What the registry of invoices says of one, which a direct payment carries.
#[derive(Clone, Copy, Debug, PartialEq, Eq)]
#[repr(u8)]
pub enum Reply {
    NotConfigured = 0,
    NotDefaulted = 1,
    Defaulted = 2,
}

impl Reply {
    pub const ALL: [Reply; 3] = [Reply::NotConfigured, Reply::NotDefaulted, Reply::Defaulted];

    pub fn from_number(number: u8) -> Option<Reply> {
        Reply::ALL.get(usize::from(number)).copied()
    }

    pub(crate) fn from_word(word: u64) -> Option<Reply> {
        u8::try_from(word).ok().and_then(Reply::from_number)
    }

    pub fn number(self) -> u8 {
        self as u8
    }
}

/// The pool for an invoice of this age in seconds and amount, of a supplier with these repayments and defaults. It never refuses.
///
/// ```
/// use pasumorip::{assess_risk, Pool};
///
/// assert_eq!(assess_risk(2_592_000, 0, 0, 1), Pool::Balanced);
/// assert_eq!(assess_risk(2_591_999, 0, 0, 999_999_999), Pool::Conservative);
/// assert_eq!(assess_risk(0, 0, 0, 0), Pool::Aggressive);
/// ```
pub fn assess_risk(age: u64, repayments: u32, defaults: u32, amount: i64) -> Pool {
    let number = face::assess_risk(age, repayments, defaults, amount);
    Pool::from_number(number).expect("the library answers the number of a pool")
}
