//! The intended differences of docs/DIFFERENCES.md on their smallest inputs: what the module alone answers, and what document 01 adds.

mod support;

use oracle::{parse_tables, Answer, Bare, Desk, Question, Record, Tables};
use support::{records, HIRE, LAST_TIME, LIMIT};

fn fresh_tables() -> Tables {
    parse_tables("settings 1 0 0 0").expect("the tables are well written")
}

/// The last answers of the module alone and with the added rules; the calls before it are answered alike.
fn both(tables: &Tables, calls: &str) -> (Answer, Answer) {
    let mut module = Bare::load(tables).expect("the tables are well formed");
    let mut desk = Desk::open(tables.clone());
    let records = records(calls);
    let (last, before) = records.split_last().expect("there is a call");
    for record in before {
        assert_eq!(module.call(record), desk.call(record), "{record:?}");
    }
    (module.call(last), desk.call(last))
}

/// The module does the last call and pays or grants this much; here it is refused with the code.
fn refused_here(tables: &str, calls: &str, first: i64, code: u8) {
    let (module, here) = both(&parse_tables(tables).expect("the tables are well written"), calls);
    assert_eq!((module.code as u8, module.first), (0, first), "{calls}");
    assert_eq!(here.code as u8, code, "{calls}");
}

const FRESH: &str = "settings 1 0 0 0";

#[test]
fn limits_of_amounts_and_figures() {
    let stake = |amount: i64| format!("stake pool=3 staker=7 amount={amount} signer=7\n");
    refused_here(FRESH, &stake(LIMIT + 1), 0, 10);
    refused_here(FRESH, &(stake(LIMIT) + &stake(1)), 0, 10);
    refused_here(FRESH, "rate pool=3 rate=1000001 signer=1", 0, 10);
    let rich = format!("{HIRE}{}stake pool=3 staker=8 amount={LIMIT} signer=8\n", stake(LIMIT));
    let reserve = |amount: i64| format!("reserve pool=3 offer=5 amount={amount} signer=2\n");
    refused_here(FRESH, &(rich.clone() + &reserve(LIMIT) + &reserve(1)), 1, 10);
    let pay = format!("pay pool=3 reply=2 invoice=5 beneficiary=9 amount={} signer=2", LIMIT + 1);
    refused_here(FRESH, &(rich + &pay), LIMIT + 1, 10);
}

/// A yield of more than 10^15, whether it is banked or at once paid out.
#[test]
fn limit_of_an_accrual() {
    let calls = format!("rate pool=3 rate=1000000 signer=1\nstake pool=3 staker=7 amount={LIMIT} signer=7\n");
    let later = "withdraw pool=3 staker=7 amount=1 now=315361 signer=7";
    let (module, here) = both(&fresh_tables(), &(calls.clone() + later));
    assert_eq!(module.to_string(), "0 0 0\nout 7 1\nout 7 1000003170979198\n");
    assert_eq!(here.to_string(), "10 0 0\n");
    refused_here(FRESH, &(calls + "rate pool=3 rate=0 now=315361 signer=1"), 0, 10);
}

/// A row below zero gives back to the last sharer what it would have lost.
#[test]
fn limit_of_a_stake_below_zero() {
    let tables = "rooms 4 1
stake 3 1 1000000000000000 0 0
stake 3 2 3 0 0
stake 3 3 -1 0 0
stake 3 4 -1000000000000000 0 0
balances 0 0 0 2
settings 1 2 0 0";
    refused_here(tables, "pay pool=3 reply=2 invoice=5 beneficiary=9 amount=2 signer=2", 2, 10);
}

#[test]
fn an_amount_over_its_limit_comes_before_the_registry() {
    let pay =
        |reply: u8| format!("{HIRE}pay pool=3 reply={reply} invoice=5 beneficiary=9 amount={} signer=2", LIMIT + 1);
    for (reply, code) in [(0, 7), (1, 8)] {
        let (module, here) = both(&fresh_tables(), &pay(reply));
        assert_eq!((module.code as u8, here.code as u8), (code, 10));
    }
}

#[test]
fn an_amount_over_its_limit_comes_before_the_cover() {
    for pool in [0, 3] {
        let claim = format!("{HIRE}claim pool={pool} offer=5 lender=9 amount={} signer=2", LIMIT + 1);
        let (module, here) = both(&fresh_tables(), &claim);
        assert_eq!((module.code as u8, here.code as u8), (9, 10));
    }
}

/// Only a row far below zero can be left below the least stake by so large an amount.
#[test]
fn an_amount_over_its_limit_comes_before_the_least_stake() {
    let tables = "stake 3 7 -1000000000000000 0 0\nbalances 0 0 0 -1000000000000000\nsettings 1 0 0 0";
    let stake = format!("stake pool=3 staker=7 amount={} signer=7", LIMIT + 1);
    let (module, here) = both(&parse_tables(tables).expect("the tables are well written"), &stake);
    assert_eq!((module.code as u8, here.code as u8), (6, 10));
}

#[test]
fn no_free_row() {
    let tables = "rooms 1 1\nsettings 1 0 0 0";
    let stakes = "stake pool=3 staker=7 amount=2000000 signer=7\nstake pool=0 staker=7 amount=1000000 signer=7\n";
    refused_here(tables, stakes, 0, 11);
    let offers = format!(
        "{HIRE}stake pool=3 staker=7 amount=1000000 signer=7
reserve pool=3 offer=5 amount=1 signer=2
reserve pool=3 offer=6 amount=1 signer=2"
    );
    refused_here(tables, &offers, 1, 11);
}

/// Ten years of 1,000 basis points earn a stake's own size, and seventy earn seven times that. Within the limits both answer alike, below zero too.
#[test]
fn accrued_beyond_its_limit() {
    const TEN_YEARS: u64 = 315_360_000;
    const LIMIT_AND_ONE: i128 = LIMIT as i128 + 1;
    const SEVENTH: i64 = (LIMIT + 1) / 7;
    let both = |stake: i64, banked: i64, now: u64| {
        let text = format!("stake 2 7 {stake} 0 {banked}\nbalances 0 0 {stake} 0\nsettings 1 0 0 0");
        let tables = parse_tables(&text).expect("the tables are well written");
        let module = Bare::load(&tables).expect("the tables are well formed").accrued(2, 7, now);
        let here = Desk::open(tables).ask(&Question::Accrued { pool: 2, account: 7, now });
        (module, here.code as u8, here.first)
    };
    assert_eq!(both(1, LIMIT, TEN_YEARS), (LIMIT_AND_ONE, 10, 0));
    assert_eq!(both(1, LIMIT - 1, TEN_YEARS), (LIMIT.into(), 0, LIMIT));
    assert_eq!(both(-SEVENTH, 0, 7 * TEN_YEARS), (-LIMIT_AND_ONE, 10, 0));
    assert_eq!(both(-SEVENTH, 1, 7 * TEN_YEARS), ((-LIMIT).into(), 0, -LIMIT));
    assert_eq!(both(-1, 0, TEN_YEARS), (-1, 0, -1));
}

/// The module goes on earning after the last second that document 01 knows.
#[test]
fn a_query_after_the_last_second() {
    let tables = parse_tables("stake 2 7 1000000 0 0\nbalances 0 0 1000000 0\nsettings 1 0 0 0").expect("well written");
    let module = Bare::load(&tables).expect("the tables are well formed");
    assert!(module.accrued(2, 7, LAST_TIME + 400) > module.accrued(2, 7, LAST_TIME));
    let question = Question::Accrued { pool: 2, account: 7, now: LAST_TIME + 1 };
    assert_eq!(Desk::open(tables).ask(&question).to_string(), "1 0 0\n");
}

/// Each operation is done by both at the last second, and by the module alone one later.
#[test]
fn a_call_after_the_last_second() {
    for pool in 0..4 {
        let calls = format!(
            "stake pool={pool} staker=8 amount=1000000 signer=8
withdraw pool={pool} staker=7 amount=1 signer=7
pay pool={pool} reply=2 invoice=5 beneficiary=9 amount=2 signer=2
reserve pool={pool} offer=6 amount=2 signer=2
claim pool={pool} offer=5 lender=9 amount=1 signer=2
rate pool=3 rate=5 signer=1
pause signer=1
unpause signer=1
payout_caller caller=3 signer=1"
        );
        let before = format!(
            "{HIRE}stake pool={pool} staker=7 amount=9000000 signer=7\nreserve pool={pool} offer=5 amount=9 signer=2\n"
        );
        let calls = records(&calls);
        assert_eq!(calls.iter().map(|call| call.operation).collect::<Vec<_>>(), (1..=9).collect::<Vec<_>>());
        for call in calls {
            last_second_and_one_later(&before, &call);
        }
    }
}

fn last_second_and_one_later(before: &str, call: &Record) {
    let tables = fresh_tables();
    let (mut module, mut here) = (Bare::load(&tables).expect("the tables are well formed"), Desk::open(tables));
    for record in records(before) {
        assert_eq!((module.call(&record).code as u8, here.call(&record).code as u8), (0, 0), "{record:?}");
    }
    let at = |now| Record { now, ..call.clone() };
    let (last, later) = (at(LAST_TIME), at(LAST_TIME + 1));
    let told = module.clone().call(&last);
    assert_eq!(told.code as u8, 0, "{call:?}");
    assert_eq!(here.clone().call(&last), told, "{call:?}");
    assert_eq!(module.call_at(call, LAST_TIME + 1).code as u8, 0, "{call:?}");
    assert_eq!(here.call(&later).to_string(), "1 0 0\n", "{call:?}");
}

/// The module's pool query tells a tier's yield and cap too; here a pool query has two numbers.
#[test]
fn a_pool_query_tells_no_terms() {
    let (module, here) = (Bare::fresh(1), Desk::open(fresh_tables()));
    let terms: Vec<_> = (0..4).map(|pool| module.terms(pool)).collect();
    assert_eq!(terms, [Some((200, 5_000)), Some((500, 7_500)), Some((1_000, 10_000)), None]);
    for pool in 0..4 {
        assert_eq!(here.ask(&Question::Pool { pool }).to_string(), "0 0 0\n");
    }
}
