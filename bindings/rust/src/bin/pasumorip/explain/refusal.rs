//! Why a line was refused: the rule, with the figures that it looked at. The books are those before the line, and after it.

use crate::figures::grouped;
use pasumorip::limits::{GREATEST_AMOUNT, GREATEST_RATE, LEAST_STAKE};
use pasumorip::{Books, Call, Code, Flaw, Offer, Operation, Pool, Rooms};

pub fn why(code: Code, call: &Result<Call, Flaw>, books: &Books, rooms: Rooms) -> String {
    match (code, call) {
        (Code::Malformed, Err(flaw)) => flaw.to_string(),
        (_, Ok(call)) => of_call(code, call, books, rooms).unwrap_or_else(|| rule(code)),
        _ => rule(code),
    }
}

/// The rule alone, to stand within a sentence.
fn rule(code: Code) -> String {
    let sentence = code.sentence().trim_end_matches('.');
    let (first, rest) = sentence.split_at(1);
    first.to_lowercase() + rest
}

fn of_call(code: Code, call: &Call, books: &Books, rooms: Rooms) -> Option<String> {
    match code {
        Code::NotAllowed => Some(not_allowed(call, books)),
        Code::InvalidInput => Some(invalid_input(call, books)),
        Code::InsufficientBalance => insufficient(&call.operation, books),
        Code::OverLimit => Some(over_limit(&call.operation)),
        Code::TableFull => Some(match call.operation {
            Operation::Reserve { .. } => {
                format!("a new offer needs a row, and all {} are used", grouped(rooms.offers as i64))
            }
            _ => format!("a new staker needs a row, and all {} are used", grouped(rooms.stakes as i64)),
        }),
        _ => None,
    }
}

fn not_allowed(call: &Call, books: &Books) -> String {
    let needed = match call.operation {
        Operation::Stake { staker, .. } | Operation::Withdraw { staker, .. } => format!("the staker, account {staker}"),
        Operation::Pay { .. } | Operation::Reserve { .. } | Operation::Claim { .. } => {
            let caller = books.settings.payout_caller.map_or("none".to_string(), |caller| format!("account {caller}"));
            format!("the payout caller, {caller}")
        }
        _ => format!("the admin, account {}", books.settings.admin),
    };
    format!("it needs the signature of {needed}, and account {} signed", call.signer)
}

fn invalid_input(call: &Call, books: &Books) -> String {
    match (amount(&call.operation), call.operation) {
        (Some(amount), Operation::Stake { pool, staker, .. }) if amount > 0 => {
            let stake = books.stake(pool, staker).map_or(0, |row| row.stake);
            let sum = i128::from(stake) + i128::from(amount);
            format!("the stake would be {}, and the least is {}", grouped(sum), grouped(LEAST_STAKE))
        }
        (Some(amount), _) => format!("the amount is {}, and has to be above 0", grouped(amount)),
        (None, _) => rule(Code::InvalidInput),
    }
}

fn amount(operation: &Operation) -> Option<i64> {
    match *operation {
        Operation::Stake { amount, .. }
        | Operation::Withdraw { amount, .. }
        | Operation::Pay { amount, .. }
        | Operation::Reserve { amount, .. }
        | Operation::Claim { amount, .. } => Some(amount),
        _ => None,
    }
}

fn insufficient(operation: &Operation, books: &Books) -> Option<String> {
    match *operation {
        Operation::Withdraw { pool, staker, amount } => {
            let stake = books.stake(pool, staker).map_or(0, |row| row.stake);
            let (amount, stake, pool) = (grouped(amount), grouped(stake), pool.name());
            Some(format!("{amount} is more than the stake of account {staker} in the {pool} pool, {stake}"))
        }
        Operation::Claim { pool, offer, .. } => Some(no_cover(pool, offer, books)),
        _ => None,
    }
}

fn no_cover(pool: Pool, offer: Offer, books: &Books) -> String {
    let figures = books.offer(pool, offer);
    let pool = pool.name();
    if figures.reserved == 0 {
        return format!("nothing was ever reserved for offer {offer} in the {pool} pool");
    }
    let (reserved, paid) = (grouped(figures.reserved), grouped(figures.paid));
    format!("no cover is left for offer {offer} in the {pool} pool: {reserved} was reserved and {paid} is paid")
}

fn over_limit(operation: &Operation) -> String {
    let given = |what: &str, figure: i64, greatest: i64| {
        format!("the {what} is {}, and the greatest is {}", grouped(figure), grouped(greatest))
    };
    // A withdrawal's amount has no limit of its own, since the stake limits it.
    let limited = amount(operation).filter(|_| !matches!(operation, Operation::Withdraw { .. }));
    match (*operation, limited) {
        (Operation::Rate { rate }, _) if rate > GREATEST_RATE => given("rate", rate, GREATEST_RATE),
        (_, Some(amount)) if amount > GREATEST_AMOUNT => given("amount", amount, GREATEST_AMOUNT),
        _ => {
            let what = match operation {
                Operation::Stake { .. } => "the stake or its banked yield",
                Operation::Withdraw { .. } => "the yield to be paid with it",
                Operation::Reserve { .. } => "the offer's reserved sum",
                Operation::Pay { .. } | Operation::Claim { .. } => "by its share of the loss a stake",
                _ => "an account's banked yield",
            };
            format!("{what} would pass the limit of {}", grouped(GREATEST_AMOUNT))
        }
    }
}
