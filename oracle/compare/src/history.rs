//! Random histories: calls one by one on both sides, then queries, the whole again by replay, and lookups.

use crate::counts::{Counts, Situation};
use crate::difference::{Difference, Failure};
use crate::lent;
use crate::lookups::{around, few};
use crate::pair::Pair;
use crate::replayed;
use crate::shrink::fewest;
use crate::words::Words;
use oracle::limits::{LAST_TIME, POOLS};
use oracle::{Answer, Author, Code, Record, Rng, Rooms, Tables};
use proved::Query;

/// So many rows of each table are looked up after the last call, with the gaps around them.
const LOOKED_UP: usize = 4;

/// What a seed stands for.
struct Plan {
    rooms: Rooms,
    /// Begins from lent tables with rows, not from a fresh set.
    lent: bool,
    full: bool,
    calls: usize,
    calls_per_slip: u64,
    /// Draws what the plan leaves open.
    rng: Rng,
}

impl Plan {
    fn of(seed: u64) -> Plan {
        // The author draws from the seed itself.
        let mut rng = Rng(!seed);
        let rooms = |stakes: u64, offers: u64| Rooms { stakes: stakes as usize, offers: offers as usize };
        let (rooms, full) = match rng.below(64) {
            0..=31 => (rooms(1 + rng.below(12), 1 + rng.below(8)), rng.one_in(4)),
            32..=51 => (rooms(1 + rng.below(64), 1 + rng.below(32)), rng.one_in(4)),
            52..=59 => (Rooms::FULL, false),
            _ => (Rooms::FULL, true),
        };
        let lent = full || rng.one_in(2);
        let many_rows = lent && rooms == Rooms::FULL;
        let calls = if many_rows { 20 + rng.below(40) } else { 20 + rng.below(380) } as usize;
        let calls_per_slip = rng.pick(&[3, 12, 12, 12, 1_000]);
        Plan { rooms, lent, full, calls, calls_per_slip, rng }
    }

    fn start(&mut self) -> Words {
        let tables = if self.lent {
            lent::good(&mut self.rng, self.rooms, self.full)
        } else {
            Tables {
                stakes: vec![[0; 5]; self.rooms.stakes],
                offers: vec![[0; 4]; self.rooms.offers],
                balances: [0; 4],
                unpaid: [0; 4],
                settings: [1, 0, 0, 0],
            }
        };
        Words::of(&tables)
    }
}

/// How many calls the history of a seed has.
pub fn calls(seed: u64) -> usize {
    Plan::of(seed).calls
}

/// Runs the history of a seed, at most `most` calls of it.
pub fn run(seed: u64, most: usize, counts: &mut Counts) -> Result<(), Box<Failure>> {
    let mut plan = Plan::of(seed);
    let start = plan.start();
    let mut records = Vec::new();
    write(seed, most, &mut plan, &start, &mut records, counts).map_err(|difference| {
        let (records, difference) = fewest(&start, records, difference);
        Box::new(Failure { origin: format!("history of seed {seed}"), start, records, difference })
    })
}

/// The records come one at a time, each for the books that those before it have left.
fn write(
    seed: u64,
    most: usize,
    plan: &mut Plan,
    start: &Words,
    records: &mut Vec<Record>,
    counts: &mut Counts,
) -> Result<(), Difference> {
    let mut pair = Pair::over(start.clone());
    let mut before = pair.books().expect("the tables are well formed").clone();
    let mut author = Author::new(seed, before.clone());
    author.calls_per_slip = plan.calls_per_slip;
    // Lookups have draws of their own, so that a seed stands for the same calls and queries without them.
    let mut seeker = Rng(seed.rotate_left(32));
    let mut answers = Vec::new();
    for _ in 0..plan.calls.min(most) {
        let record = garble(&mut plan.rng, author.record());
        records.push(record.clone());
        let answer = pair.call(&record)?;
        counts.call(&record, &answer);
        let after = pair.books().expect("well formed is kept");
        if answer.code != Code::Malformed {
            let rooms = plan.rooms;
            counts.situation(&Situation { record: &record, code: answer.code, rooms, before: &before, after });
        }
        if answer.code == Code::Done {
            before = after.clone();
            author.see(after.clone());
        }
        answers.push(answer);
        if plan.rng.one_in(16) {
            let query = any_query(&mut plan.rng, &pair);
            pair.ask(query, counts)?;
        }
        if seeker.one_in(16) {
            for lookup in few(&mut seeker, &pair.tables()) {
                pair.look_up(lookup, counts)?;
            }
        }
    }
    finish(&mut plan.rng, &mut pair, start, records, &answers, counts)
}

/// Seldom bytes that nobody wrote.
fn garble(rng: &mut Rng, record: Record) -> Record {
    let mut bytes = record.to_bytes();
    match rng.below(128) {
        0 => bytes.chunks_exact_mut(8).for_each(|word| word.copy_from_slice(&rng.word().to_le_bytes())),
        1 => bytes[rng.below(48) as usize] = rng.word() as u8,
        2 => bytes[rng.below(48) as usize] ^= 1 << rng.below(8),
        _ => return record,
    }
    Record::from_bytes(&bytes)
}

/// What is compared after the last call: queries of every kind, the history by replay, and lookups.
pub fn finish(
    rng: &mut Rng,
    pair: &mut Pair,
    start: &Words,
    records: &[Record],
    answers: &[Answer],
    counts: &mut Counts,
) -> Result<(), Difference> {
    for kind in 1..=5 {
        for pool in 0..u64::from(POOLS) {
            let query = Query { kind, pool, ..any_query(rng, pair) };
            pair.ask(query, counts)?;
            let number = if kind == 3 || kind == 4 { 0 } else { query.number.max(1) };
            let time = if kind == 2 { query.time } else { 0 };
            pair.ask(Query { kind, pool, number, time }, counts)?;
        }
    }
    replayed::replay(rng, start, records, answers, pair.words())?;
    counts.replay(records.len());
    around(rng, &pair.tables(), LOOKED_UP).into_iter().try_for_each(|lookup| pair.look_up(lookup, counts))
}

/// Mostly of a row that is there, at times with a field that its kind does not use.
fn any_query(rng: &mut Rng, pair: &Pair) -> Query {
    let books = pair.books().expect("the tables are well formed");
    let kind = 1 + rng.below(5);
    let (mut pool, mut number) = (rng.below(4), rng.pick(&[1, 7, u64::MAX]));
    if kind <= 2 && !books.stakes.is_empty() && !rng.one_in(4) {
        let row = rng.pick(&books.stakes);
        (pool, number) = (row.pool.into(), row.account);
    }
    if kind == 5 && !books.offers.is_empty() && !rng.one_in(4) {
        let row = rng.pick(&books.offers);
        (pool, number) = (row.pool.into(), row.offer);
    }
    if (kind == 3 || kind == 4) && !rng.one_in(8) {
        number = 0;
    }
    let time = match kind {
        2 => rng.pick(&[0, 1_000, 1_700_000_000, 1_900_000_000, LAST_TIME, LAST_TIME + 1]),
        _ => u64::from(rng.one_in(16)),
    };
    Query { kind, pool, number, time }
}
