//! What a line did, read from its transfers and from the books before and after it.

use crate::figures::grouped;
use pasumorip::{Account, Answer, Books, Direction, Offer, OfferFigures, OfferRow, Operation, Pool, StakeRow};
use std::collections::BTreeMap;
use std::fmt;

#[derive(Clone, Debug, PartialEq, Eq)]
pub enum Effect {
    PaysIn { account: Account, amount: i64 },
    IsPaid { account: Account, amount: i64, is_yield: bool },
    Stake { pool: Pool, account: Account, before: i64, after: i64 },
    Banked { pool: Pool, account: Account, before: i64, after: i64 },
    Cover { pool: Pool, offer: Offer, before: OfferFigures, after: OfferFigures },
    PayoutCaller { before: Option<Account>, after: Option<Account> },
    Paused { after: bool },
    Rate { before: i64, after: i64 },
}

impl Effect {
    /// Whose money moved by it. Banked yield and reserved cover are promised, and have not moved.
    pub fn whose_money(&self) -> Option<Account> {
        match *self {
            Effect::PaysIn { account, .. } | Effect::IsPaid { account, .. } | Effect::Stake { account, .. } => {
                Some(account)
            }
            _ => None,
        }
    }
}

/// Everything that differs, and every transfer.
pub fn effects(operation: Option<Operation>, answer: &Answer, before: &Books, after: &Books) -> Vec<Effect> {
    let mut effects = transfers(operation, answer);
    effects.extend(stakes(before, after));
    effects.extend(offers(before, after));
    effects.extend(settings(before, after));
    effects
}

/// A withdrawal pays the stake first, and then the yield.
fn transfers(operation: Option<Operation>, answer: &Answer) -> Vec<Effect> {
    let withdrawal = matches!(operation, Some(Operation::Withdraw { .. }));
    let effect = |(index, transfer): (usize, pasumorip::Transfer)| match transfer.direction {
        Direction::In => Effect::PaysIn { account: transfer.account, amount: transfer.amount },
        Direction::Out => {
            let is_yield = withdrawal && index == 1;
            Effect::IsPaid { account: transfer.account, amount: transfer.amount, is_yield }
        }
    };
    answer.moved().enumerate().map(effect).collect()
}

/// Each key's values before and after, where they differ; a key that is missing has the value of an empty row.
fn changes<K: Ord, V: Copy + Default + PartialEq>(
    before: impl Iterator<Item = (K, V)>,
    after: impl Iterator<Item = (K, V)>,
) -> impl Iterator<Item = (K, V, V)> {
    let mut values: BTreeMap<K, (V, V)> = before.map(|(key, value)| (key, (value, V::default()))).collect();
    for (key, value) in after {
        values.entry(key).or_default().1 = value;
    }
    values.into_iter().filter(|(_, (before, after))| before != after).map(|(key, (before, after))| (key, before, after))
}

fn stakes(before: &Books, after: &Books) -> Vec<Effect> {
    let row = |row: &StakeRow| ((row.pool, row.account), (row.stake, row.accrual));
    let mut effects = Vec::new();
    let mut banked = Vec::new();
    for ((pool, account), old, new) in changes(before.stakes.iter().map(row), after.stakes.iter().map(row)) {
        if old.0 != new.0 {
            effects.push(Effect::Stake { pool, account, before: old.0, after: new.0 });
        }
        if old.1 != new.1 {
            banked.push(Effect::Banked { pool, account, before: old.1, after: new.1 });
        }
    }
    effects.extend(banked);
    effects
}

fn offers(before: &Books, after: &Books) -> Vec<Effect> {
    let row = |row: &OfferRow| ((row.pool, row.offer), row.figures);
    let changes = changes(before.offers.iter().map(row), after.offers.iter().map(row));
    changes.map(|((pool, offer), before, after)| Effect::Cover { pool, offer, before, after }).collect()
}

fn settings(before: &Books, after: &Books) -> Vec<Effect> {
    let (old, new) = (before.settings, after.settings);
    let mut effects = Vec::new();
    if old.payout_caller != new.payout_caller {
        effects.push(Effect::PayoutCaller { before: old.payout_caller, after: new.payout_caller });
    }
    if old.paused != new.paused {
        effects.push(Effect::Paused { after: new.paused });
    }
    if old.rate != new.rate {
        effects.push(Effect::Rate { before: old.rate, after: new.rate });
    }
    effects
}

impl fmt::Display for Effect {
    fn fmt(&self, f: &mut fmt::Formatter) -> fmt::Result {
        match *self {
            Effect::PaysIn { account, amount } => write!(f, "account {account} pays in {}", grouped(amount)),
            Effect::IsPaid { account, amount, is_yield } => {
                let what = if is_yield { " of yield" } else { "" };
                write!(f, "account {account} is paid {}{what}", grouped(amount))
            }
            Effect::Stake { pool, account, before, after } => {
                write!(f, "account {account}'s stake in the {} pool {}", pool.name(), change(before, after))
            }
            Effect::Banked { pool, account, before, after } => {
                write!(f, "account {account}'s banked yield in the {} pool {}", pool.name(), change(before, after))
            }
            Effect::Cover { pool, offer, before, after } => {
                let (reserved, paid) = (grouped(after.reserved), grouped(after.paid));
                write!(f, "offer {offer}'s cover in the {} pool ", pool.name())?;
                write!(f, "{}: {reserved} reserved, {paid} paid", change(before.cover(), after.cover()))
            }
            Effect::PayoutCaller { before, after } => {
                write!(f, "the payout caller was {} and is {}", named(before), named(after))
            }
            Effect::Paused { after: true } => write!(f, "the books are paused"),
            Effect::Paused { after: false } => write!(f, "the books are no longer paused"),
            Effect::Rate { before, after } => {
                write!(f, "the flat pool's rate was {} basis points and is {}", grouped(before), grouped(after))
            }
        }
    }
}

fn named(account: Option<Account>) -> String {
    account.map_or("nobody".to_string(), |account| format!("account {account}"))
}

fn change(before: i64, after: i64) -> String {
    let difference = i128::from(after) - i128::from(before);
    let (verb, size) = if difference < 0 { ("falls", -difference) } else { ("rises", difference) };
    format!("{verb} by {}, from {} to {}", grouped(size), grouped(before), grouped(after))
}
