//! Answers: a code, two numbers and at most two transfers.

use std::fmt;

#[derive(Clone, Copy, Debug, PartialEq, Eq, PartialOrd, Ord)]
pub enum Code {
    Done = 0,
    Malformed = 1,
    BadTables = 2,
    Paused = 3,
    NoPayer = 4,
    NotAllowed = 5,
    InvalidInput = 6,
    NoRegistry = 7,
    InvalidTransition = 8,
    InsufficientBalance = 9,
    OverLimit = 10,
    TableFull = 11,
}

/// A transfer into the pool or out of it: account and amount.
#[derive(Clone, Copy, Debug, PartialEq, Eq)]
pub enum Way {
    In(u64, i64),
    Out(u64, i64),
}

#[derive(Clone, Debug, PartialEq, Eq)]
pub struct Answer {
    pub code: Code,
    pub first: i64,
    pub second: i64,
    pub transfers: Vec<Way>,
}

impl Answer {
    pub fn refusal(code: Code) -> Answer {
        Answer { code, first: 0, second: 0, transfers: Vec::new() }
    }

    pub fn told(first: i64, second: i64) -> Answer {
        Answer { code: Code::Done, first, second, transfers: Vec::new() }
    }
}

/// As the log's printout has it, after the record's number; each transfer on a line of its own.
impl fmt::Display for Answer {
    fn fmt(&self, f: &mut fmt::Formatter) -> fmt::Result {
        writeln!(f, "{} {} {}", self.code as u8, self.first, self.second)?;
        for transfer in &self.transfers {
            match transfer {
                Way::In(account, amount) => writeln!(f, "in {account} {amount}")?,
                Way::Out(account, amount) => writeln!(f, "out {account} {amount}")?,
            }
        }
        Ok(())
    }
}
