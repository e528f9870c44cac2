//! Tables and accrued queries aimed at where a slip would show: sums at their limits and at 0, and the seconds that bring a unit of yield. Most rows
//! have a stake below zero.

use super::plain::{rate, Row, DENOMINATOR};
use crate::lent::{balances, good};
use oracle::limits::{LAST_TIME, LIMIT};
use oracle::{Rng, Rooms, Tables};
use proved::Query;

/// So many rows of a set of tables are asked for.
const ROWS: usize = 12;

/// The flat pool earns at least as much as the Conservative one where it is aimed at, so that a large stake reaches every sum.
const LEAST_RATE: u64 = 200;

#[derive(Clone, Copy)]
enum Aim {
    /// What is banked and what runs come to this sum together.
    Sum(i128),
    /// A unit of yield below zero comes alone: the first, and a later one.
    Unit,
    /// A row kept for what is banked, without a stake.
    BankedAlone,
    /// Rows and rates as lent tables have them.
    None,
}

const AIMS: [Aim; 11] = [
    Aim::Sum(-LIMIT - 1),
    Aim::Sum(-LIMIT),
    Aim::Sum(1 - LIMIT),
    Aim::Sum(-1),
    Aim::Sum(0),
    Aim::Sum(LIMIT - 1),
    Aim::Sum(LIMIT),
    Aim::Sum(LIMIT + 1),
    Aim::Unit,
    Aim::BankedAlone,
    Aim::None,
];

/// Tables, and the accrued queries put to them.
pub struct Aimed {
    pub tables: Tables,
    pub queries: Vec<Query>,
}

/// Tables for each aim, with one row or more that meets it.
pub fn round(seed: u64) -> impl Iterator<Item = Aimed> {
    let mut rng = Rng(seed);
    AIMS.into_iter().map(move |aim| for_aim(&mut rng, aim))
}

fn for_aim(rng: &mut Rng, aim: Aim) -> Aimed {
    let rooms = match rng.below(256) {
        0 => Rooms::FULL,
        _ => Rooms { stakes: 1 + rng.below(ROWS as u64) as usize, offers: 1 + rng.below(8) as usize },
    };
    let mut tables = good(rng, rooms, true);
    if !matches!(aim, Aim::None) {
        tables.settings[3] = tables.settings[3].max(LEAST_RATE);
    }
    let flat = tables.settings[3] as u32;
    let count = ROWS.min(rooms.stakes);
    let from = rng.below((rooms.stakes - count) as u64 + 1) as usize;
    // Nobody has this account, or hardly ever.
    let mut queries = vec![asked(rng.below(4), rng.word().max(1), rng.below(LAST_TIME + 1))];
    for (at, words) in tables.stakes[from..from + count].iter_mut().enumerate() {
        let [pool, account, stake, since, banked] = *words;
        let came = Row { stake: i128::from(stake as i64), since, banked: banked.into(), rate: rate(pool, flat) };
        let below = if rng.one_in(8) { came } else { Row { stake: -came.stake.abs(), ..came } };
        let aim = if at > 0 && rng.one_in(8) { Aim::None } else { aim };
        let (row, met) = below.meeting(rng, aim);
        *words = [pool, account, row.stake as u64, row.since, row.banked as u64];
        queries.extend(row.times(rng, &met).into_iter().map(|time| asked(pool, account, time)));
    }
    tables.balances = balances(&tables.stakes);
    Aimed { tables, queries }
}

fn asked(pool: u64, number: u64, time: u64) -> Query {
    Query { kind: 2, pool, number, time }
}

impl Row {
    /// The row with the figures that the aim needs, and the times that meet it.
    fn meeting(self, rng: &mut Rng, aim: Aim) -> (Row, Vec<u64>) {
        match aim {
            Aim::Sum(sum) => self.landed(rng, sum).unwrap_or_else(|| {
                let sign = if sum > 0 { 1 } else { -1 };
                let large = Row { stake: sign * rng.between(LIMIT / 8, LIMIT), ..self.begun(rng) };
                large.landed(rng, sum).expect("a large stake reaches every sum of its sign")
            }),
            Aim::Unit => {
                // At most one unit a second.
                let slow = Row { stake: -rng.between(1, DENOMINATOR / self.rate), ..self.begun(rng) };
                let later = rng.between(1, slow.earned(LAST_TIME).max(1));
                let seconds = [1, later].into_iter().filter_map(|units| slow.first(|now| slow.earned(now) >= units));
                (slow, seconds.collect())
            }
            Aim::BankedAlone => (Row { stake: 0, since: 0, banked: self.banked.max(1), ..self }, vec![]),
            Aim::None => (self, vec![]),
        }
    }

    /// Long before the last second.
    fn begun(self, rng: &mut Rng) -> Row {
        Row { since: 1 + rng.below(1_800_000_000), ..self }
    }

    /// The row with as much banked as makes this sum at some time, and that time. What is banked is 0 to 10^15, so that what has been earned lies
    /// between two bounds.
    fn landed(self, rng: &mut Rng, sum: i128) -> Option<(Row, Vec<u64>)> {
        let (least, most) = if self.stake < 0 { (-sum, LIMIT - sum) } else { (sum - LIMIT, sum) };
        let from = self.first(|now| self.earned(now) >= least)?;
        let end = self.first(|now| self.earned(now) > most).unwrap_or(LAST_TIME + 1);
        if self.stake == 0 || from >= end {
            return None;
        }
        let between = from + rng.below(end - from);
        let now = rng.pick(&[from, between, end - 1]);
        let banked = sum - self.at(now).running();
        Some((Row { banked, ..self }, vec![now]))
    }

    /// How much it has earned or lost by then.
    fn earned(self, now: u64) -> i128 {
        self.at(now).running().abs()
    }

    /// The first second from `since` on at which a test holds that goes on to hold.
    fn first(self, holds: impl Fn(u64) -> bool) -> Option<u64> {
        let (mut from, mut to) = (self.since, LAST_TIME + 1);
        while from < to {
            let middle = from + (to - from) / 2;
            if holds(middle) {
                to = middle;
            } else {
                from = middle + 1;
            }
        }
        (from <= LAST_TIME).then_some(from)
    }

    /// The times that meet the aim and `since`, each with the second before and after, and times on their edges.
    fn times(self, rng: &mut Rng, met: &[u64]) -> Vec<u64> {
        let around = |time: u64| [time.saturating_sub(1), time, LAST_TIME.min(time + 1)];
        let mut times: Vec<u64> = met.iter().copied().chain([self.since]).flat_map(around).collect();
        times.extend([0, LAST_TIME, rng.below(LAST_TIME + 1)]);
        times
    }
}
