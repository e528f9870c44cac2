//! What has been compared, by operation and code.

use crate::accrued::Accrued;
use crate::cases::Cases;
use crate::lookups::Looked;
use crate::writes::Wrote;
use oracle::{grouped, Answer, Books, Code, Record, Rooms};
use std::collections::BTreeMap;
use std::fmt;

const CODES: usize = 12;

const OPERATIONS: [&str; 10] =
    ["other bytes", "stake", "withdraw", "pay", "reserve", "claim", "rate", "pause", "unpause", "payout caller"];

const QUERIES: [&str; 6] = ["other kinds", "stake", "accrued", "pool", "count", "offer"];

type Holds = fn(&Situation) -> bool;

/// What the books are like when a call of a history comes, and what it does to them.
const SITUATIONS: [(&str, Holds); 9] = [
    ("on books with a stake below 0", |at| at.before.stakes.iter().any(|row| row.stake < 0)),
    ("on books with a balance below 0", |at| at.before.balances.iter().any(|balance| *balance < 0)),
    ("on books with a row kept for its accrual alone", |at| at.before.stakes.iter().any(|row| row.stake == 0)),
    ("on books with no free stake row", |at| at.before.stakes.len() == at.rooms.stakes),
    ("on books with no free offer row", |at| at.before.offers.len() == at.rooms.offers),
    ("on books with 1,024 stakes and 512 offers", |at| {
        at.before.stakes.len() == Rooms::FULL.stakes && at.before.offers.len() == Rooms::FULL.offers
    }),
    ("with a time before its stake's `since`", |at| {
        let stake = |row: &&oracle::StakeRow| (row.pool, row.account) == (at.record.pool, at.record.subject);
        at.record.operation <= 2 && at.before.stakes.iter().find(stake).is_some_and(|row| at.record.now < row.since)
    }),
    ("that drive a stake below 0", |at| {
        let below = |books: &Books| books.stakes.iter().filter(|row| row.stake < 0).count();
        at.takes_loss() && below(at.after) > below(at.before)
    }),
    ("that wipe a stake by a loss", |at| {
        let held = |books: &Books| books.stakes.iter().filter(|row| row.stake != 0).count();
        at.takes_loss() && held(at.after) < held(at.before)
    }),
];

/// A call of a history that was not Malformed, with the books before and after it.
pub struct Situation<'a> {
    pub record: &'a Record,
    pub code: Code,
    pub rooms: Rooms,
    pub before: &'a Books,
    pub after: &'a Books,
}

impl Situation<'_> {
    fn takes_loss(&self) -> bool {
        self.code == Code::Done && matches!(self.record.operation, 3 | 5)
    }
}

#[derive(Default)]
pub struct Counts {
    situations: [u64; SITUATIONS.len()],
    calls: [[u64; CODES]; OPERATIONS.len()],
    queries: [[u64; CODES]; QUERIES.len()],
    pub accrued: Cases<Accrued>,
    pub lookups: Cases<Looked>,
    pub writes: Cases<Wrote>,
    lent: BTreeMap<&'static str, u64>,
    replays: u64,
    replayed: u64,
    pub fresh: u64,
    pub risks: u64,
}

impl Counts {
    pub fn call(&mut self, record: &Record, answer: &Answer) {
        let operation = usize::from(record.operation);
        self.calls[if operation < OPERATIONS.len() { operation } else { 0 }][answer.code as usize] += 1;
    }

    pub fn situation(&mut self, situation: &Situation) {
        for (count, (_, holds)) in self.situations.iter_mut().zip(&SITUATIONS) {
            *count += u64::from(holds(situation));
        }
    }

    pub fn query(&mut self, kind: u64, answer: &Answer) {
        self.queries[if kind < QUERIES.len() as u64 { kind as usize } else { 0 }][answer.code as usize] += 1;
    }

    pub fn lent(&mut self, kind: &'static str) {
        *self.lent.entry(kind).or_default() += 1;
    }

    pub fn replay(&mut self, records: usize) {
        self.replays += 1;
        self.replayed += records as u64;
    }

    /// Calls in all.
    pub fn calls(&self) -> u64 {
        self.calls.iter().flatten().sum()
    }

    pub fn add(&mut self, other: &Counts) {
        let figures = |counts: &Counts| [counts.calls.concat(), counts.queries.concat()].concat();
        let sums = figures(self).into_iter().zip(figures(other)).map(|(a, b)| a + b);
        let places = self.calls.iter_mut().flatten().chain(self.queries.iter_mut().flatten());
        places.zip(sums.collect::<Vec<_>>()).for_each(|(place, sum)| *place = sum);
        for (count, other) in self.situations.iter_mut().zip(other.situations) {
            *count += other;
        }
        self.accrued.add(&other.accrued);
        self.lookups.add(&other.lookups);
        self.writes.add(&other.writes);
        for (kind, count) in &other.lent {
            *self.lent.entry(kind).or_default() += count;
        }
        self.replays += other.replays;
        self.replayed += other.replayed;
        self.fresh += other.fresh;
        self.risks += other.risks;
    }
}

fn table(f: &mut fmt::Formatter, what: &str, names: &[&str], rows: &[[u64; CODES]]) -> fmt::Result {
    let codes: Vec<String> = (0..CODES).map(|code| code.to_string()).collect();
    writeln!(f, "| {what} | {} | all |\n|---|{}", codes.join(" | "), "---:|".repeat(CODES + 1))?;
    let line = |name: &str, figures: [u64; CODES]| {
        let cells: Vec<String> = figures.into_iter().chain([figures.iter().sum()]).map(grouped).collect();
        format!("| {name} | {} |", cells.join(" | "))
    };
    for (name, row) in names.iter().zip(rows) {
        writeln!(f, "{}", line(name, *row))?;
    }
    let sums = std::array::from_fn(|code| rows.iter().map(|row| row[code]).sum());
    writeln!(f, "{}\n", line("all", sums))
}

/// As docs/COMPARISON.md has it.
impl fmt::Display for Counts {
    fn fmt(&self, f: &mut fmt::Formatter) -> fmt::Result {
        table(f, "calls by code", &OPERATIONS, &self.calls)?;
        table(f, "queries by code", &QUERIES, &self.queries)?;
        writeln!(f, "| calls of histories, well formed | |\n|---|---:|")?;
        for ((name, _), count) in SITUATIONS.iter().zip(self.situations) {
            writeln!(f, "| {name} | {} |", grouped(count))?;
        }
        writeln!(f, "\n| accrued queries, well formed | |\n|---|---:|\n{}", self.accrued)?;
        writeln!(f, "| lookups | |\n|---|---:|\n| in all | {} |\n{}", grouped(self.lookups.all()), self.lookups)?;
        writeln!(f, "| writes | |\n|---|---:|\n| in all | {} |\n{}", grouped(self.writes.all()), self.writes)?;
        writeln!(f, "| replays | records in them | fresh sets and heads | risks |\n|---:|---:|---:|---:|")?;
        let cells = [self.replays, self.replayed, self.fresh, self.risks].map(grouped);
        writeln!(f, "| {} |\n", cells.join(" | "))?;
        writeln!(f, "| lent tables | tried |\n|---|---:|")?;
        self.lent.iter().try_for_each(|(kind, count)| writeln!(f, "| {kind} | {} |", grouped(*count)))
    }
}
