//! Answers and their text.

use crate::decimal;

#[derive(Clone, Copy, Debug, PartialEq, Eq)]
pub enum Code {
    Done = 0,
    Malformed = 1,
    Paused = 3,
    NoPayer = 4,
    NotAllowed = 5,
    InvalidInput = 6,
    NoRegistry = 7,
    InvalidTransition = 8,
    InsufficientBalance = 9,
    OverLimit = 10,
    TableFull = 11,
}

/// A transfer into the pool or out of it: account and amount.
#[derive(Clone, Copy, Debug, PartialEq, Eq)]
pub enum Way {
    None,
    In(u64, i64),
    Out(u64, i64),
}

#[derive(Clone, Copy, Debug, PartialEq, Eq)]
pub struct Answer {
    pub code: Code,
    pub first: i64,
    pub second: i64,
    pub ways: [Way; 2],
}

impl Answer {
    pub fn refused(code: Code) -> Answer {
        Answer { code, first: 0, second: 0, ways: [Way::None; 2] }
    }

    pub fn done(first: i64, second: i64, way: Way) -> Answer {
        Answer { code: Code::Done, first, second, ways: [way, Way::None] }
    }

    pub fn print(&self, number: u64, out: &mut Vec<u8>) {
        decimal::unsigned(number, out);
        out.push(b' ');
        decimal::unsigned(self.code as u64, out);
        out.push(b' ');
        decimal::signed(self.first, out);
        out.push(b' ');
        decimal::signed(self.second, out);
        out.push(b'\n');
        for way in &self.ways {
            let (word, account, amount) = match *way {
                Way::None => break,
                Way::In(account, amount) => (&b"in "[..], account, amount),
                Way::Out(account, amount) => (&b"out "[..], account, amount),
            };
            out.extend_from_slice(word);
            decimal::unsigned(account, out);
            out.push(b' ');
            decimal::signed(amount, out);
            out.push(b'\n');
        }
    }
}
