//! Lent tables: random well-formed ones, and bad ones of every kind.

mod bad;
mod tried;

pub use tried::run;

use crate::words::Words;
use bad::{spoil, KINDS};
use oracle::limits::{GREATEST_RATE, LAST_TIME, LIMIT, POOLS};
use oracle::{Rng, Rooms, Tables};
use std::collections::BTreeSet;

/// How the stakes of a pool look.
#[derive(Clone, Copy)]
enum Style {
    /// A few units up or down, where every rounding shows.
    Few,
    Usual,
    /// On a limit or one off it.
    Edge,
    Mixed,
}

/// Well-formed tables; `full` of them has every row in use.
pub fn good(rng: &mut Rng, rooms: Rooms, full: bool) -> Tables {
    let count = |rng: &mut Rng, rooms: usize| if full { rooms } else { rng.below(rooms as u64 + 1) as usize };
    filled(rng, rooms, [count, count])
}

/// Well-formed tables with so many rows in use.
pub fn used(rng: &mut Rng, rooms: Rooms, rows: Rooms) -> Tables {
    filled(rng, rooms, [rows.stakes, rows.offers].map(|rows| move |_: &mut Rng, _| rows))
}

/// Well-formed tables with one thing wrong, of any kind.
pub fn bad(rng: &mut Rng, mut words: Words) -> Words {
    let (_, change) = rng.pick(KINDS);
    change(rng, &mut words);
    words
}

/// Well-formed tables. How many of its rows a table uses is drawn just before their keys.
fn filled(rng: &mut Rng, rooms: Rooms, [stakes, offers]: [impl Fn(&mut Rng, usize) -> usize; 2]) -> Tables {
    let styles =
        [(); POOLS as usize].map(|()| rng.pick(&[Style::Few, Style::Usual, Style::Usual, Style::Edge, Style::Mixed]));
    let used = stakes(rng, rooms.stakes);
    let stakes: Vec<[u64; 5]> = keys(rng, rooms.stakes, used)
        .into_iter()
        .map(|(pool, account)| {
            let (stake, since, accrual) = figures(rng, styles[pool as usize]);
            [pool, account, stake as u64, since, accrual as u64]
        })
        .collect();
    let used = offers(rng, rooms.offers);
    let offers: Vec<[u64; 4]> = keys(rng, rooms.offers, used)
        .into_iter()
        .map(|(pool, offer)| {
            let (reserved, paid) = cover(rng);
            [pool, offer, reserved as u64, paid as u64]
        })
        .collect();
    let balances = balances(&stakes);
    let unpaid = sums(offers.iter().map(|row| (row[0], i128::from(row[2]) - i128::from(row[3]))));
    let admin = rng.pick(&[1, 1, 1, 2, 1 << 63, u64::MAX]);
    let caller = rng.pick(&[0, 2, 2, 2, 3, 7, u64::MAX]);
    let rate = rng.pick(&[0, 1, 500, 10_000, GREATEST_RATE as u64 - 1, GREATEST_RATE as u64]);
    let settings = [admin, caller, rng.one_in(10).into(), rate];
    let mut tables = Tables { stakes, offers, balances, unpaid, settings };
    tables.stakes.resize(rooms.stakes, [0; 5]);
    tables.offers.resize(rooms.offers, [0; 4]);
    tables
}

/// The balance that each pool has by its stakes.
pub fn balances(stakes: &[[u64; 5]]) -> [u64; POOLS as usize] {
    sums(stakes.iter().map(|row| (row[0], i128::from(row[2] as i64))))
}

/// The sum of each pool's figures, as a word.
fn sums(figures: impl Iterator<Item = (u64, i128)>) -> [u64; POOLS as usize] {
    let mut sums = [0i128; POOLS as usize];
    figures.for_each(|(pool, figure)| sums[pool as usize] += figure);
    sums.map(|sum| sum as u64)
}

/// Pools and numbers in order.
fn keys(rng: &mut Rng, rooms: usize, count: usize) -> BTreeSet<(u64, u64)> {
    // Some tables use one pool alone.
    let only = if rng.one_in(4) { Some(rng.below(POOLS.into())) } else { None };
    let mut keys = BTreeSet::new();
    while keys.len() < count {
        let pool = only.unwrap_or_else(|| rng.below(POOLS.into()));
        let number = match rng.below(4) {
            0 => rng.pick(&[1, 2, 3, 7, 1 << 32, 1 << 63, u64::MAX - 1, u64::MAX]),
            1 => rng.word().max(1),
            _ => 1 + rng.below(2 * rooms as u64),
        };
        keys.insert((pool, number));
    }
    keys
}

/// Stake, since and accrual.
fn figures(rng: &mut Rng, style: Style) -> (i128, u64, i128) {
    let accrual = match rng.below(8) {
        0 => LIMIT - rng.between(0, 1),
        1 => rng.between(0, LIMIT),
        2 | 3 => rng.between(1, 1_000),
        _ => 0,
    };
    if rng.one_in(8) {
        // A row kept for its accrual alone.
        return (0, 0, accrual.max(1));
    }
    let stake = match style {
        Style::Few => rng.between(-9, 9),
        Style::Usual => rng.between(1_000_000, 1_000_000_000),
        Style::Edge => rng.pick(&[1, -1]) * (LIMIT - rng.between(0, 2)),
        Style::Mixed => rng.between(-LIMIT, LIMIT),
    };
    let since = match rng.below(8) {
        0 => 0,
        1 => LAST_TIME - rng.below(2),
        2 => rng.below(LAST_TIME + 1),
        _ => 1_700_000_000 + rng.below(31_536_000),
    };
    (if stake == 0 { 1 } else { stake }, since, accrual)
}

/// Reserved and paid.
fn cover(rng: &mut Rng) -> (i128, i128) {
    let reserved = match rng.below(6) {
        0 => LIMIT - rng.between(0, 1),
        1 => rng.between(1, LIMIT),
        2 => rng.between(1, 9),
        _ => rng.between(1, 1_000_000_000),
    };
    let paid = match rng.below(4) {
        0 => reserved,
        1 => reserved - 1,
        2 => rng.between(0, reserved),
        _ => 0,
    };
    (reserved, paid)
}
