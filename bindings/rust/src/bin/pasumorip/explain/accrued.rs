//! Accrued yields, as the library answers them at the time of the last line that has one.

use crate::dates::utc;
use crate::figures::grouped;
use pasumorip::limits::LAST_TIME;
use pasumorip::{Account, Code, Pool, Tables};
use std::fmt;

/// A line with a time at which the library can be asked.
#[derive(Clone, Copy)]
pub struct Moment {
    line: u64,
    time: u64,
}

impl Moment {
    /// None for a time that no call may have.
    pub fn of(line: u64, time: u64) -> Option<Moment> {
        (time <= LAST_TIME).then_some(Moment { line, time })
    }

    /// What the account's row shows as accrued.
    pub fn accrued(&self, tables: &Tables, pool: Pool, account: Account) -> String {
        match tables.accrued(pool, account, self.time) {
            Ok(sum) => grouped(sum),
            Err(Code::OverLimit) => "past its limit".to_string(),
            Err(code) => code.to_string(),
        }
    }
}

impl fmt::Display for Moment {
    fn fmt(&self, f: &mut fmt::Formatter) -> fmt::Result {
        write!(f, "the time of line {}, {}", self.line, utc(self.time))
    }
}

#[cfg(test)]
mod tests {
    use crate::explain::explainer::Explainer;
    use pasumorip::limits::{GREATEST_AMOUNT, GREATEST_RATE, LAST_TIME};
    use pasumorip::record::{Record, RECORD_BYTES};
    use pasumorip::{log, Account, Call, Invoice, Operation, Pool, Reply};

    const TEN_YEARS: u64 = 315_360_000;

    fn call(now: u64, signer: u64, operation: Operation) -> [u8; RECORD_BYTES] {
        Call { now, signer: Account(signer), operation }.to_bytes()
    }

    /// No call, with a time all the same.
    fn no_call(now: u64) -> [u8; RECORD_BYTES] {
        Record { now, ..Record::default() }.to_bytes()
    }

    fn explained(lines: &[[u8; RECORD_BYTES]]) -> Explainer {
        let head = log::head(Account(1)).expect("an admin is not 0");
        let mut explainer = Explainer::open(&head).expect("the head is good");
        for line in lines {
            explainer.explain(line);
        }
        explainer
    }

    /// The moment, and the last cell of each account's row.
    fn shown(explainer: &Explainer) -> (String, Vec<String>) {
        let rows = explainer.account_rows();
        let cells = rows.iter().skip(1).map(|row| row.last().expect("a row has cells").clone());
        (explainer.moment.map_or(String::new(), |moment| moment.to_string()), cells.collect())
    }

    /// Three stakes of 1 in the Aggressive pool bear a loss of 2: the last sharer is left with -1, the others with 1.
    fn below_zero() -> Vec<[u8; RECORD_BYTES]> {
        let (pool, amount) = (Pool::Aggressive, 1_000_000);
        let mut lines = vec![call(0, 1, Operation::PayoutCaller { caller: Account(2) })];
        for staker in [3, 4, 5].map(Account) {
            lines.push(call(0, staker.0, Operation::Stake { pool, staker, amount }));
            lines.push(call(0, staker.0, Operation::Withdraw { pool, staker, amount: amount - 1 }));
        }
        let (reply, invoice, beneficiary) = (Reply::Defaulted, Invoice(5), Account(6));
        lines.push(call(0, 2, Operation::Pay { pool, reply, invoice, beneficiary, amount: 2 }));
        lines
    }

    #[test]
    fn a_stake_below_zero_shows_a_sum_below_zero() {
        let at = |now| shown(&explained(&[below_zero(), vec![no_call(now)]].concat()));
        let (when, cells) = at(TEN_YEARS);
        assert_eq!(when, "the time of line 9, 1979-12-30 00:00:00 UTC");
        // Account 6 was paid and has no stake.
        assert_eq!(cells, ["1", "1", "-1", ""]);
        assert_eq!(at(TEN_YEARS - 1).1, ["0", "0", "0", ""]);
    }

    #[test]
    fn the_last_line_with_a_time_counts_also_where_the_clock_goes_back() {
        let at = |times: &[u64]| {
            let lines = times.iter().map(|now| no_call(*now));
            shown(&explained(&below_zero().into_iter().chain(lines).collect::<Vec<_>>()))
        };
        assert_eq!(at(&[3 * TEN_YEARS, LAST_TIME + 1, u64::MAX]), at(&[3 * TEN_YEARS]));
        assert_eq!(at(&[3 * TEN_YEARS]).1, ["3", "3", "-3", ""]);
        assert_eq!(at(&[3 * TEN_YEARS, TEN_YEARS]).1, ["1", "1", "-1", ""]);
        assert_eq!(at(&[LAST_TIME]).0, "the time of line 9, 2514-05-30 01:53:03 UTC");
    }

    #[test]
    fn a_sum_past_its_limit_is_no_figure() {
        let stake = Operation::Stake { pool: Pool::Flat, staker: Account(7), amount: GREATEST_AMOUNT };
        let lines = [call(0, 1, Operation::Rate { rate: GREATEST_RATE }), call(0, 7, stake)];
        let at = |now| shown(&explained(&[&lines[..], &[no_call(now)]].concat())).1;
        // A hundredfold a year: the limit is met after 315,360 seconds.
        assert_eq!(at(TEN_YEARS / 1000), ["1,000,000,000,000,000"]);
        assert_eq!(at(TEN_YEARS / 1000 + 1), ["past its limit"]);
    }

    #[test]
    fn without_a_time_there_is_no_moment() {
        let nothing = (String::new(), Vec::new());
        assert_eq!(shown(&explained(&[])), nothing);
        assert_eq!(shown(&explained(&[no_call(LAST_TIME + 1)])), nothing);
    }
}
