//! Short inputs, all of them: one call on each of several small books.

mod books;

pub use books::BOOKS;

use crate::counts::Counts;
use crate::difference::{Difference, Failure};
use crate::pair::Pair;
use crate::words::Words;
use oracle::limits::{FLAT, GREATEST_RATE, LAST_TIME, LIMIT, POOLS};
use oracle::{parse_tables, Code, Lookup, Record};
use proved::Query;

/// Books that each call begins from, and what has been compared on them.
struct Bench<'a> {
    name: &'static str,
    start: Pair,
    pair: Pair,
    counts: &'a mut Counts,
}

/// Every short input on one of the books.
pub fn run(book: usize, counts: &mut Counts) -> Result<(), Box<Failure>> {
    let (name, text) = BOOKS[book];
    let words = Words::of(&parse_tables(text).expect("the books are well written"));
    let start = Pair::over(words);
    let mut bench = Bench { name, pair: start.clone(), start, counts };
    bench.every_byte_of_the_kind()?;
    bench.every_limit()?;
    bench.every_single_byte_change()?;
    bench.every_query()?;
    bench.every_lookup()
}

/// A call of the operation in the pool that has all it needs and nothing more. Any other operation has every field.
fn template(operation: u8, pool: u8) -> Record {
    let plain = Record { operation, pool, now: 2_000, signer: 2, ..Record::default() };
    match operation {
        1 | 2 => Record { signer: 7, subject: 7, amount: 1_000_000, ..plain },
        3 => Record { reply: 2, subject: 5, other: 9, amount: 1_000_000, ..plain },
        4 => Record { subject: 5, amount: 1_000_000, ..plain },
        5 => Record { subject: 5, other: 9, amount: 1_000_000, ..plain },
        6 => Record { signer: 1, amount: 700, ..plain },
        7 | 8 => Record { signer: 1, pool: 0, ..plain },
        9 => Record { signer: 1, pool: 0, subject: 3, ..plain },
        _ => Record { reply: 2, subject: 7, other: 9, amount: 1_000_000, ..plain },
    }
}

impl Bench<'_> {
    fn call(&mut self, record: &Record) -> Result<(), Box<Failure>> {
        match self.pair.call(record) {
            Ok(answer) => {
                self.counts.call(record, &answer);
                if answer.code == Code::Done {
                    self.pair = self.start.clone();
                }
                Ok(())
            }
            Err(difference) => Err(self.failure(vec![record.clone()], difference)),
        }
    }

    fn failure(&self, records: Vec<Record>, difference: Difference) -> Box<Failure> {
        let origin = format!("short inputs, books '{}'", self.name);
        Box::new(Failure { origin, start: self.start.words().clone(), records, difference })
    }

    /// Operation and pool from 0 to 255 with each reply and two that are none; every reply with each operation and pool.
    fn every_byte_of_the_kind(&mut self) -> Result<(), Box<Failure>> {
        for operation in 0..=255 {
            for pool in 0..=255 {
                for reply in [0, 1, 2, 3, 255] {
                    self.call(&Record { pool, reply, ..template(operation, pool) })?;
                }
            }
        }
        for operation in 0..=10 {
            for pool in 0..=POOLS {
                for reply in 0..=255 {
                    self.call(&Record { reply, ..template(operation, pool) })?;
                }
            }
        }
        Ok(())
    }

    /// Amounts and times on each limit and one off it, in each operation and pool, for accounts and offers with and without a row.
    fn every_limit(&mut self) -> Result<(), Box<Failure>> {
        let times = self.times();
        for operation in 1..=9 {
            for pool in 0..POOLS {
                for subject in [0, 5, 6, 7, 8, u64::MAX] {
                    for amount in self.amounts(pool, subject) {
                        for &now in &times {
                            let record = Record { now, subject, amount, ..template(operation, pool) };
                            let signer = if operation <= 2 { subject } else { record.signer };
                            self.call(&Record { signer, ..record })?;
                        }
                    }
                }
                for signer in [0, 1, 2, 3, 7, u64::MAX] {
                    for amount in [0, 1, LIMIT as i64 + 1] {
                        self.call(&Record { signer, amount, ..template(operation, pool) })?;
                    }
                }
            }
        }
        Ok(())
    }

    fn times(&self) -> Vec<u64> {
        let since = self.start.books().and_then(|books| books.stakes.first()).map_or(1_000, |row| row.since);
        // 1,576 s and 1,577 s are the two sides of the first unit that 1,000,000 earns at 200.
        let steps = [0, 1, 1_576, 1_577, 31_536_000];
        let mut times: Vec<u64> = steps.iter().map(|step| since + step).collect();
        times.extend([0, since.saturating_sub(1), LAST_TIME - 1, LAST_TIME, LAST_TIME + 1, u64::MAX]);
        times
    }

    /// Each limit of an amount, and each figure of the books at hand, with one below and one above.
    fn amounts(&self, pool: u8, number: u64) -> Vec<i64> {
        let mut edges = vec![0, 1_000_000, GREATEST_RATE.into(), LIMIT, -LIMIT, i64::MIN.into(), i64::MAX.into()];
        if let Some(books) = self.start.books() {
            let (balance, unpaid) = (books.balances[usize::from(pool)], books.unpaid[usize::from(pool)]);
            edges.extend([balance, balance - unpaid, 2 * balance, balance * 4 / 3]);
            let stake =
                books.stakes.iter().find(|row| (row.pool, row.account) == (pool, number)).map_or(0, |row| row.stake);
            edges.extend([stake, 1_000_000 - stake, LIMIT - stake]);
            if let Some(row) = books.offers.iter().find(|row| (row.pool, row.offer) == (pool, number)) {
                edges.extend([row.reserved, row.reserved - row.paid, LIMIT - row.reserved]);
            }
        }
        let around = edges.iter().flat_map(|edge| [edge - 1, *edge, edge + 1]);
        let mut amounts: Vec<i64> = around.filter_map(|amount| i64::try_from(amount).ok()).collect();
        amounts.sort_unstable();
        amounts.dedup();
        amounts
    }

    fn every_single_byte_change(&mut self) -> Result<(), Box<Failure>> {
        for operation in 1..=9 {
            for pool in 0..POOLS {
                let bytes = template(operation, pool).to_bytes();
                // The operations without a pool are the same in each, and a rate is of the flat pool.
                if (operation >= 7 && pool > 0) || (operation == 6 && pool != FLAT) {
                    continue;
                }
                for at in 0..Record::LENGTH {
                    for change in 1..=255 {
                        let mut changed = bytes;
                        changed[at] ^= change;
                        self.call(&Record::from_bytes(&changed))?;
                    }
                }
            }
        }
        Ok(())
    }

    /// Every kind with its fields on their edges, and fields that it does not use.
    fn every_query(&mut self) -> Result<(), Box<Failure>> {
        let mut times = self.times();
        times.extend([1, 2_000]);
        for kind in [0, 1, 2, 3, 4, 5, 6, 256, u64::MAX] {
            for pool in [0, 1, 2, 3, 4, 256, u64::MAX] {
                for number in [0, 1, 5, 6, 7, 8, 1 << 63, u64::MAX] {
                    for &time in &times {
                        let query = Query { kind, pool, number, time };
                        let asked = self.pair.ask(query, self.counts);
                        asked.map_err(|difference| self.failure(vec![], difference))?;
                    }
                }
            }
        }
        Ok(())
    }

    fn every_lookup(&mut self) -> Result<(), Box<Failure>> {
        for pool in [0, 1, 2, 3, 4, 256, 257, (1 << 32) + 1, u64::MAX] {
            for number in [0, 1, 4, 5, 6, 7, 8, 9, 1 << 63, u64::MAX] {
                for lookup in [Lookup::Stake { pool, account: number }, Lookup::Offer { pool, offer: number }] {
                    let looked = self.pair.look_up(lookup, self.counts);
                    looked.map_err(|difference| self.failure(vec![], difference))?;
                }
            }
        }
        Ok(())
    }
}
