//! Lookups of rows by a plain model over lists of keys, written from W-213's own sentence: "Finding a row, or the place for a new one, among
//! k used rows, k being given, must read at most the number of binary digits of k, 0 for an empty table."

use crate::answer::Code;
use crate::limits::POOLS;
use crate::tables::Tables;
use std::ops::Range;

/// Pool and number, read together.
pub type Key = (u64, u64);

#[derive(Clone, Copy, Debug, PartialEq, Eq)]
pub enum Lookup {
    Stake { pool: u64, account: u64 },
    Offer { pool: u64, offer: u64 },
}

impl Lookup {
    pub fn key(&self) -> Key {
        match *self {
            Lookup::Stake { pool, account } => (pool, account),
            Lookup::Offer { pool, offer } => (pool, offer),
        }
    }

    pub fn malformed(&self) -> bool {
        let (pool, number) = self.key();
        pool >= u64::from(POOLS) || number == 0
    }

    /// The keys of the used rows of the table that it looks at. They come first, and are known without a look.
    pub fn keys(&self, tables: &Tables) -> Vec<Key> {
        match self {
            Lookup::Stake { .. } => used(tables.stakes.iter().map(|row| (row[0], row[1]))),
            Lookup::Offer { .. } => used(tables.offers.iter().map(|row| (row[0], row[1]))),
        }
    }
}

fn used(keys: impl Iterator<Item = Key>) -> Vec<Key> {
    keys.filter(|(_, number)| *number != 0).collect()
}

#[derive(Clone, Debug, PartialEq, Eq)]
pub struct Found {
    /// How many rows are used.
    pub used: usize,
    /// Whether the row is there.
    pub row: bool,
    /// Its place, or the place for a new one: so many rows come before it.
    pub place: usize,
    /// "the rows read", in their order.
    pub read: Vec<usize>,
}

impl Found {
    /// A key among those of the used rows, which rise.
    pub fn among(keys: &[Key], wanted: Key) -> Found {
        Found {
            used: keys.len(),
            row: keys.contains(&wanted),
            place: keys.iter().filter(|key| **key < wanted).count(),
            read: rows_read(keys, wanted, 0..keys.len()),
        }
    }

    /// Whether it read as many rows as it may.
    pub fn read_all_digits(&self) -> bool {
        self.read.len() == binary_digits(self.used)
    }
}

/// "the halving steps": the middle row of a range, then the rows read of the half that the place is in.
fn rows_read(keys: &[Key], wanted: Key, range: Range<usize>) -> Vec<usize> {
    if range.is_empty() {
        return vec![];
    }
    let middle = range.start + range.len() / 2;
    let half = if keys[middle] < wanted { middle + 1..range.end } else { range.start..middle };
    [vec![middle], rows_read(keys, wanted, half)].concat()
}

/// None of 0.
pub fn binary_digits(number: usize) -> usize {
    if number == 0 {
        0
    } else {
        1 + binary_digits(number / 2)
    }
}

/// "The answer of a lookup reports its count": code, 1 for a row and 0 for none, its place, how many rows were read.
pub fn lookup_words(told: &Result<Found, Code>) -> [u64; 4] {
    match told {
        Ok(found) => [Code::Done as u64, found.row.into(), found.place as u64, found.read.len() as u64],
        Err(code) => [*code as u64, 0, 0, 0],
    }
}
