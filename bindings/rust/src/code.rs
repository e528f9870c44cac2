//! Answer codes.

use std::fmt;

/// Whether a call took effect, or the first rule that refused it.
#[derive(Clone, Copy, Debug, PartialEq, Eq, PartialOrd, Ord, Hash)]
#[repr(u8)]
pub enum Code {
    Done = 0,
    Malformed = 1,
    BadTables = 2,
    Paused = 3,
    NoPayer = 4,
    NotAllowed = 5,
    InvalidInput = 6,
    NoRegistry = 7,
    InvalidTransition = 8,
    InsufficientBalance = 9,
    OverLimit = 10,
    TableFull = 11,
}

impl Code {
    pub const ALL: [Code; 12] = [
        Code::Done,
        Code::Malformed,
        Code::BadTables,
        Code::Paused,
        Code::NoPayer,
        Code::NotAllowed,
        Code::InvalidInput,
        Code::NoRegistry,
        Code::InvalidTransition,
        Code::InsufficientBalance,
        Code::OverLimit,
        Code::TableFull,
    ];

    pub fn from_number(number: u8) -> Option<Code> {
        Code::ALL.get(usize::from(number)).copied()
    }

    /// The code that the library answered.
    pub(crate) fn told(number: u64) -> Code {
        let code = u8::try_from(number).ok().and_then(Code::from_number);
        code.expect("the library answers a code from 0 to 11")
    }

    pub fn number(self) -> u8 {
        self as u8
    }

    /// Nothing where the call is done, and the code where it is refused.
    pub fn done(self) -> Result<(), Code> {
        match self {
            Code::Done => Ok(()),
            code => Err(code),
        }
    }

    /// The rule in a sentence.
    pub fn sentence(self) -> &'static str {
        match self {
            Code::Done => "The call took effect, or is one that pays or grants 0.",
            Code::Malformed => {
                "The record is no call: a field has no meaning, or one is given that the call does not use."
            }
            Code::BadTables => "The tables are not well formed.",
            Code::Paused => "The books are paused; only flat withdrawals, pause and unpause go on.",
            Code::NoPayer => "No payout caller is set, and only the payout caller pays, reserves and claims.",
            Code::NotAllowed => "The signer is not the staker, payout caller or admin that the call needs.",
            Code::InvalidInput => "The amount is 0 or less, or would leave a stake below 1,000,000.",
            Code::NoRegistry => "The registry of invoices is not configured.",
            Code::InvalidTransition => "The registry does not have the invoice as defaulted.",
            Code::InsufficientBalance => "The withdrawal is above the stake, or no cover is left for the claim.",
            Code::OverLimit => {
                "A rate, amount, stake, accrual, accrued sum or reserved sum is past its limit, or would pass it."
            }
            Code::TableFull => {
                "A row has to be added and none is free, or bytes have to be written and too few are left."
            }
        }
    }
}

/// The code's name.
impl fmt::Display for Code {
    fn fmt(&self, f: &mut fmt::Formatter) -> fmt::Result {
        fmt::Debug::fmt(self, f)
    }
}

impl std::error::Error for Code {}
