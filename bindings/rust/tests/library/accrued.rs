//! The accrued query against whole numbers of 128 bits, over generated rows that meet every case of it.

use crate::numbers::Numbers;
use pasumorip::limits::{GREATEST_AMOUNT, LAST_TIME};
use pasumorip::{Account, Code, Pool, Tables};
use std::collections::BTreeMap;

/// Basis points times the seconds of a year.
const WHOLE_YEAR: i128 = 315_360_000_000;
const LIMIT: i128 = GREATEST_AMOUNT as i128;
const FLAT_RATES: [u64; 4] = [0, 1, 500, 1_000_000];
const TABLES: u64 = 60_000;
/// How often each case has to be met at least.
const OFTEN: u64 = 500;

/// A stake row, and when it is asked for.
#[derive(Clone, Copy, Debug)]
struct Row {
    pool: Pool,
    account: Account,
    rate: u64,
    stake: i64,
    since: u64,
    banked: i64,
    now: u64,
}

impl Row {
    fn product(&self) -> i128 {
        i128::from(self.stake) * i128::from(self.rate) * i128::from(self.now.saturating_sub(self.since))
    }

    /// `/` rounds toward zero.
    fn running(&self) -> i128 {
        self.product() / WHOLE_YEAR
    }

    fn sum(&self) -> i128 {
        i128::from(self.banked) + self.running()
    }

    fn expected(&self) -> Result<i64, Code> {
        match self.sum() {
            sum if sum.abs() <= LIMIT => Ok(sum as i64),
            _ => Err(Code::OverLimit),
        }
    }

    fn cases(&self) -> impl Iterator<Item = String> {
        let (stake, sum) = (i128::from(self.stake), self.sum());
        [
            (true, format!("{} pool", self.pool.name())),
            (self.pool == Pool::Flat, format!("flat rate {}", self.rate)),
            (true, format!("stake {}", sign(stake))),
            (stake.abs() == LIMIT, format!("stake at the limit, {}", sign(stake))),
            (i128::from(self.banked) == LIMIT, "banked at the limit".to_string()),
            (true, format!("time against since: {:?}, stake {}", self.now.cmp(&self.since), sign(stake))),
            (self.product() % WHOLE_YEAR < 0, "running yield below zero, rounded".to_string()),
            (sum.abs() <= LIMIT, format!("sum {}", sign(sum))),
            (sum.abs() > LIMIT, format!("sum beyond, {}", sign(sum))),
            (sum.abs() == LIMIT && self.running() != 0, format!("sum at the limit, {}", sign(sum))),
            (sum.abs() == LIMIT + 1, format!("sum one beyond, {}", sign(sum))),
        ]
        .into_iter()
        .filter_map(|(met, case)| met.then_some(case))
    }
}

fn sign(figure: i128) -> &'static str {
    ["below zero", "zero", "above zero"][(figure.signum() + 1) as usize]
}

fn row(numbers: &mut Numbers, pool: Pool, flat_rate: u64) -> Row {
    let amounts = [1, numbers.amount(), GREATEST_AMOUNT];
    let stake = numbers.pick(&[-1, 0, 1]) * numbers.pick(&amounts);
    let sums = [0, numbers.amount(), GREATEST_AMOUNT];
    let times = [0, numbers.up_to(LAST_TIME), LAST_TIME];
    // The tables have it so: a row without a stake has a banked sum, and no time.
    let (since, banked) = match stake {
        0 => (0, numbers.pick(&sums).max(1)),
        _ => (numbers.pick(&times), numbers.pick(&sums)),
    };
    let times = [0, numbers.up_to(since), since, since + numbers.up_to(LAST_TIME - since), LAST_TIME];
    let rate = [200, 500, 1_000, flat_rate][usize::from(pool.number())];
    Row { pool, account: Account(numbers.word().max(1)), rate, stake, since, banked, now: numbers.pick(&times) }
}

/// The row with times and a banked sum that come to this sum, where some do.
fn aimed(numbers: &mut Numbers, row: Row, sum: i128) -> Option<Row> {
    let each_second = i128::from(row.stake) * i128::from(row.rate);
    let running = sum.min(0) + sum.signum() * i128::from(numbers.amount());
    let elapsed = (running * WHOLE_YEAR).checked_div(each_second)?;
    let elapsed = u64::try_from(elapsed).ok().filter(|elapsed| *elapsed <= LAST_TIME)?;
    let since = numbers.up_to(LAST_TIME - elapsed);
    let row = Row { since, now: since + elapsed, banked: 0, ..row };
    let banked = sum - row.sum();
    (0..=LIMIT).contains(&banked).then_some(Row { banked: banked as i64, ..row })
}

fn tables(rows: &[Row], flat_rate: u64) -> Tables {
    let words = |row: &Row| [row.pool.number().into(), row.account.0, row.stake as u64, row.since, row.banked as u64];
    // A row in each pool is its whole balance.
    let balances = rows.iter().map(|row| row.stake as u64);
    let books = balances.chain([0, 0, 0, 0, 1, 0, 0, flat_rate]).collect();
    Tables::from_words(rows.iter().flat_map(words).collect(), vec![0; 4], books)
}

#[test]
fn of_generated_rows() {
    let mut numbers = Numbers(204);
    let mut met = BTreeMap::<String, u64>::new();
    for _ in 0..TABLES {
        let flat_rate = numbers.pick(&FLAT_RATES);
        let rows = Pool::ALL.map(|pool| {
            let row = row(&mut numbers, pool, flat_rate);
            let sum = numbers.pick(&[-LIMIT - 1, -LIMIT, LIMIT, LIMIT + 1]);
            let aimed = aimed(&mut numbers, row, sum);
            numbers.pick(&[Some(row), aimed]).unwrap_or(row)
        });
        let tables = tables(&rows, flat_rate);
        for row in rows {
            assert_eq!(tables.accrued(row.pool, row.account, row.now), row.expected(), "{row:?}");
            for case in row.cases() {
                *met.entry(case).or_default() += 1;
            }
        }
    }
    // As many as `Row::cases` can name, in its order; without a stake there is no time before `since`.
    let cases = 4 + FLAT_RATES.len() + 3 + 2 + 1 + 8 + 1 + 3 + 2 + 2 + 2;
    assert!(met.len() == cases && met.values().all(|times| *times >= OFTEN), "{cases} cases: {met:#?}");
}

#[test]
fn of_rows_by_hand() {
    // An Aggressive stake earns itself in ten years.
    let (pool, account, rate, ten_years) = (Pool::Aggressive, Account(7), 1_000, 315_360_000);
    let asked = |stake, banked, now| {
        let none = |pool| Row { pool, account: Account(1), rate: 0, stake: 0, since: 0, banked: 1, now: 0 };
        let row = Row { pool, account, rate, stake, since: 100, banked, now };
        let rows = [none(Pool::Conservative), none(Pool::Balanced), row, none(Pool::Flat)];
        tables(&rows, 0).accrued(pool, account, now)
    };
    let end = 100 + ten_years;
    assert_eq!(asked(-1, 0, end), Ok(-1));
    assert_eq!(asked(-1, 0, end - 1), Ok(0));
    assert_eq!(asked(-5, 3, end), Ok(-2));
    assert_eq!(asked(-5, 3, 99), Ok(3));
    assert_eq!(asked(-GREATEST_AMOUNT, 0, end), Ok(-GREATEST_AMOUNT));
    // A second more is 3,170,979 more.
    assert_eq!(asked(-GREATEST_AMOUNT, 3_170_979, end + 1), Ok(-GREATEST_AMOUNT));
    assert_eq!(asked(-GREATEST_AMOUNT, 3_170_978, end + 1), Err(Code::OverLimit));
    assert_eq!(asked(GREATEST_AMOUNT, 0, end), Ok(GREATEST_AMOUNT));
    assert_eq!(asked(GREATEST_AMOUNT, 1, end), Err(Code::OverLimit));
}
