//! One operation at a time, and how its time grows with the rows in use.

use crate::engines::{drop_text, fresh, RECORD};
use crate::logs::{Author, ADMIN};
use crate::turns::per_record;

pub const ROWS: [usize; 4] = [16, 64, 256, 1_024];

/// A name, the pool that holds all rows, and how a record is written for so many rows.
pub struct Operation {
    pub name: &'static str,
    pool: u8,
    /// How many times a stake of 10^9 each row has.
    scale: i64,
    /// Whether every row of the pool is read or written, so that fewer records are enough.
    walks: bool,
    write: fn(&mut Author, u8, usize),
}

const BALANCED: u8 = 1;

fn account(at: usize) -> u64 {
    1_000 + 7 * at as u64
}

fn offer(at: usize) -> u64 {
    1 + 3 * at as u64
}

/// Offers come at half the number of stakes, as the rooms do.
fn any_offer(author: &mut Author, rows: usize) -> u64 {
    offer(author.below(rows / 2))
}

pub const OPERATIONS: [Operation; 10] = [
    Operation {
        name: "stake, added to a row",
        pool: BALANCED,
        scale: 1,
        walks: false,
        write: |author, pool, rows| {
            let at = author.below(rows - 1);
            author.stake(pool, account(at), 3);
        },
    },
    Operation {
        name: "withdraw, a part",
        pool: BALANCED,
        scale: 1,
        walks: false,
        write: |author, pool, rows| {
            let at = author.below(rows - 1);
            author.withdraw(pool, account(at), 3);
        },
    },
    Operation {
        name: "stake of a new row, and all of it withdrawn",
        pool: BALANCED,
        scale: 1,
        walks: false,
        write: |author, pool, rows| {
            let newcomer = account(author.below(rows)) + 1;
            let rows = &author.engine.pools[usize::from(pool)].stakes;
            match rows.iter().find(|row| (row.account - 1_000) % 7 == 1).map(|row| (row.account, row.stake)) {
                Some((account, stake)) => author.withdraw(pool, account, stake),
                None => author.stake(pool, newcomer, 1_000_000),
            }
        },
    },
    Operation {
        name: "pay",
        pool: BALANCED,
        scale: 1,
        walks: true,
        write: |author, pool, _| author.pay(pool, 100_003),
    },
    Operation {
        name: "pay, products of two limbs",
        pool: BALANCED,
        scale: 1_000,
        walks: true,
        write: |author, pool, _| author.pay(pool, 100_003_000),
    },
    Operation {
        name: "reserve",
        pool: BALANCED,
        scale: 1,
        walks: false,
        write: |author, pool, rows| {
            let offer = any_offer(author, rows);
            author.reserve(pool, offer, 5);
        },
    },
    Operation {
        name: "claim",
        pool: BALANCED,
        scale: 1,
        walks: true,
        write: |author, pool, rows| {
            let offer = any_offer(author, rows);
            author.claim(pool, offer, 1_003);
        },
    },
    Operation {
        name: "rate",
        pool: 3,
        scale: 1,
        walks: true,
        write: |author, pool, rows| {
            let rate = 400 + author.below(rows) as i64;
            author.call(6, pool, ADMIN, 0, 0, rate);
        },
    },
    Operation {
        name: "unpause",
        pool: BALANCED,
        scale: 1,
        walks: false,
        write: |author, _, _| author.call(8, 0, ADMIN, 0, 0, 0),
    },
    Operation {
        name: "malformed",
        pool: BALANCED,
        scale: 1,
        walks: false,
        write: |author, _, _| author.call(10, 0, ADMIN, 0, 0, 0),
    },
];

/// Nanoseconds per record of each engine. One row is left free for a newcomer.
pub fn measure(operation: &Operation, rows: usize, turns: usize) -> Vec<f64> {
    let mut author = Author::new(rows as u64);
    let pool = operation.pool;
    (0..rows - 1).for_each(|at| author.stake(pool, account(at), 1_000_000_000 * operation.scale));
    (0..rows / 2).for_each(|at| author.reserve(pool, offer(at), 10_000_000 * operation.scale));
    let before = author.take();
    let records = if operation.walks { 200_000 / rows } else { 20_000 };
    for _ in 0..records {
        author.now += author.rng.below(600);
        (operation.write)(&mut author, pool, rows);
    }
    let timed = author.take();
    let engines = fresh(ADMIN).map(|mut engine| {
        engine.run(&before, &mut drop_text);
        engine
    });
    // The original is timed on a twentieth: with many rows it takes up to a thousandth of a second for a record.
    let twentieth = &timed[..records / 20 * RECORD];
    per_record(&engines, &[&timed, &timed, twentieth], turns)
}
