//! What the lines of a log did for each account so far.

use super::effect::Effect;
use crate::figures::grouped;
use pasumorip::{Account, Books, Pool};
use std::collections::BTreeMap;

/// A sentence names this many accounts at most; the rest are counted.
pub const MOST_NAMED: usize = 8;

#[derive(Default)]
pub struct Summary {
    pub lines: u64,
    pub accounts: BTreeMap<Account, AccountSummary>,
}

#[derive(Default)]
pub struct AccountSummary {
    pub paid_in: i128,
    pub paid_out: i128,
    /// The pools in which the account had a stake, banked yield or a loss.
    pub pools: BTreeMap<Pool, PoolSummary>,
}

#[derive(Clone, Copy, Default)]
pub struct PoolSummary {
    pub before: i64,
    pub after: i64,
    pub banked: i64,
    pub lost: i128,
}

/// What the lines before a refused one did: a sentence, and a sum to each item.
pub struct Standing {
    pub lead: String,
    pub sums: Vec<String>,
}

impl Summary {
    /// Stakes before are those that stand now.
    pub fn begin(&mut self) {
        for pool in self.accounts.values_mut().flat_map(|account| account.pools.values_mut()) {
            pool.before = pool.after;
        }
    }

    /// Adds a line's effects. A loss is what a stake falls by, or rises, where others' money is paid out of the pool.
    pub fn add(&mut self, effects: &[Effect], shares_loss: bool) {
        self.lines += 1;
        for effect in effects {
            match *effect {
                Effect::PaysIn { account, amount } => self.account(account).paid_in += i128::from(amount),
                Effect::IsPaid { account, amount, .. } => self.account(account).paid_out += i128::from(amount),
                Effect::Stake { pool, account, before, after } => {
                    let summary = self.pool(account, pool);
                    summary.after = after;
                    if shares_loss {
                        summary.lost += i128::from(before) - i128::from(after);
                    }
                }
                Effect::Banked { pool, account, after, .. } => self.pool(account, pool).banked = after,
                _ => (),
            }
        }
    }

    fn account(&mut self, account: Account) -> &mut AccountSummary {
        self.accounts.entry(account).or_default()
    }

    fn pool(&mut self, account: Account, pool: Pool) -> &mut PoolSummary {
        self.account(account).pools.entry(pool).or_default()
    }

    pub fn standing(&self) -> Standing {
        let lines = match self.lines {
            0 => return Standing { lead: "No line stands before it.".to_string(), sums: Vec::new() },
            1 => "line 1".to_string(),
            last => format!("lines 1 to {last}"),
        };
        let sums: Vec<String> = [
            self.sum("came in", |account| account.paid_in),
            self.sum("went out", |account| account.paid_out),
            self.sum("of losses was borne by stakes", |account| account.pools.values().map(|pool| pool.lost).sum()),
        ]
        .into_iter()
        .flatten()
        .collect();
        let lead = match sums[..] {
            [] => format!("Nobody's money moved in {lines} either."),
            _ => format!("What {lines} did stands:"),
        };
        Standing { lead, sums }
    }

    /// The sum of a figure over the accounts, and whose it is; none where it is 0 for all.
    fn sum(&self, what: &str, figure: impl Fn(&AccountSummary) -> i128) -> Option<String> {
        let figures = self.accounts.iter().map(|(account, summary)| (account, figure(summary)));
        let figures: Vec<_> = figures.filter(|(_, figure)| *figure != 0).collect();
        if figures.is_empty() {
            return None;
        }
        let sum: i128 = figures.iter().map(|(_, figure)| figure).sum();
        let named = figures.iter().take(MOST_NAMED);
        let mut who: Vec<String> =
            named.map(|(account, figure)| format!("account {account}: {}", grouped(*figure))).collect();
        if figures.len() > MOST_NAMED {
            who.push(format!("and {} more accounts", figures.len() - MOST_NAMED));
        }
        Some(format!("{} {what} ({})", grouped(sum), who.join("; ")))
    }

    /// What came in and went out over all accounts.
    pub fn sums(&self) -> (i128, i128) {
        let sum = |figure: fn(&AccountSummary) -> i128| self.accounts.values().map(figure).sum();
        (sum(|account| account.paid_in), sum(|account| account.paid_out))
    }

    /// The header and the cells of a row per account and pool, with what is told of the accrued yield there.
    pub fn account_rows(&self, accrued: impl Fn(Account, Pool) -> String) -> Vec<Vec<String>> {
        let of_account = ["account", "paid in", "paid out"];
        let of_pool = ["pool", "stake before", "stake after", "losses borne", "banked yield", "accrued yield"];
        let mut rows = vec![of_account.iter().chain(&of_pool).map(|name| name.to_string()).collect()];
        for (account, summary) in &self.accounts {
            let mut lead = vec![account.to_string(), grouped(summary.paid_in), grouped(summary.paid_out)];
            if summary.pools.is_empty() {
                rows.push([lead.clone(), vec![String::new(); of_pool.len()]].concat());
            }
            for (pool, figures) in &summary.pools {
                let PoolSummary { before, after, banked, lost } = *figures;
                let name = pool.name().to_string();
                let accrued = accrued(*account, *pool);
                let cells = [name, grouped(before), grouped(after), grouped(lost), grouped(banked), accrued];
                rows.push([lead, cells.to_vec()].concat());
                lead = vec![String::new(); of_account.len()];
            }
        }
        rows
    }
}

/// The header and the cells of a row per pool.
pub fn pool_rows(books: &Books) -> Vec<Vec<String>> {
    let header = ["pool", "balance", "unpaid reserved", "stakers"].map(String::from).to_vec();
    let row = |pool: Pool| {
        let figures = books.pool(pool);
        let stakers = books.stakes.iter().filter(|row| row.pool == pool && row.stake != 0).count();
        vec![pool.name().to_string(), grouped(figures.balance), grouped(figures.unpaid), stakers.to_string()]
    };
    [header].into_iter().chain(Pool::ALL.map(row)).collect()
}
