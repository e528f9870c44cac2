//! Document 01's sample log and its figures K1 to K12.

mod support;

use oracle::assess_risk;
use support::{accrued, fresh, on, printout, rows, run, told, HIRE};

const ROOMS: (usize, usize) = (8, 8);

#[test]
fn sample_log() {
    let text = "admin 1
        stake pool=1 staker=7 amount=2_000_000 signer=7
        withdraw pool=1 staker=7 amount=3_000_000 signer=7
        stake pool=1 staker=8 amount=999_999 signer=8";
    assert_eq!(printout(text), "POL 1\n1 0 0 0\nin 7 2000000\n2 9 0 0\n3 6 0 0\nend 3 0\n");
}

#[test]
fn k1_a_year_of_conservative_yield() {
    let mut desk = fresh(ROOMS);
    run(&mut desk, "stake pool=0 staker=7 amount=10_000_000 signer=7");
    assert_eq!(accrued(&desk, 0, 7, 31_536_000), 200_000);
}

#[test]
fn k2_the_second_that_earns_the_first_unit() {
    let mut desk = fresh(ROOMS);
    run(&mut desk, "stake pool=0 staker=7 amount=1_000_000 signer=7");
    assert_eq!(accrued(&desk, 0, 7, 1_576), 0);
    assert_eq!(accrued(&desk, 0, 7, 1_577), 1);
}

/// The flat pool banks without a change of stake, when the rate is set again.
#[test]
fn k3_banking_twice_loses_what_banking_once_keeps() {
    let start = "rate pool=3 rate=200 signer=1\nstake pool=3 staker=7 amount=1_000_000 signer=7\n";
    let once = "rate pool=3 rate=200 now=3152 signer=1";
    let twice = format!("rate pool=3 rate=200 now=1576 signer=1\n{once}");
    for (banking, row) in [(once, "3 7 1000000 3152 1"), (twice.as_str(), "3 7 1000000 3152 0")] {
        let mut desk = fresh(ROOMS);
        run(&mut desk, &format!("{start}{banking}"));
        assert_eq!(rows(&desk, "stake"), [row]);
    }
}

/// Three stakes of one pool, a direct payment as the loss, and what is left of each row.
fn after_loss(pool: u8, stakes: [i64; 3], loss: i64) -> Vec<String> {
    let mut tables = String::from("rooms 8 8\nsettings 1 2 0 0\n");
    for (account, stake) in (7..).zip(stakes) {
        tables += &format!("stake {pool} {account} {stake} 9 0\n");
    }
    let mut balances = [0; 4];
    balances[usize::from(pool)] = stakes.iter().sum::<i64>();
    tables += &format!("balances {} {} {} {}\n", balances[0], balances[1], balances[2], balances[3]);
    let mut desk = on(&tables);
    let pay = format!("pay pool={pool} reply=2 invoice=5 beneficiary=6 amount={loss} signer=2");
    assert_eq!(told(&mut desk, &pay), [(0, loss, 0)]);
    let left = rows(&desk, "stake");
    left.iter().map(|row| row.split_whitespace().skip(1).take(2).collect::<Vec<_>>().join(" ")).collect()
}

#[test]
fn k4_the_last_sharer_goes_below_zero() {
    for pool in [2, 3] {
        assert_eq!(after_loss(pool, [1, 1, 1], 2), ["7 1", "8 1", "9 -1"]);
    }
}

#[test]
fn k5_a_negative_share_raises_a_stake() {
    for pool in [2, 3] {
        assert_eq!(after_loss(pool, [5, -5, 1], 1), ["7 4", "9 -4"]);
    }
}

#[test]
fn k6_shares_are_truncated_and_the_last_takes_the_rest() {
    for pool in [2, 3] {
        let left = after_loss(pool, [3_000_000, 2_000_000, 1_000_001], 1_000_000);
        assert_eq!(left, ["7 2500001", "8 1666667", "9 833333"]);
    }
}

/// Answers after a payout caller is hired and 7 has staked 10,000,000 in the pool.
fn told_in(pool: u8, calls: &[(&str, i64, i64)]) -> Vec<(u8, i64, i64)> {
    let mut desk = fresh(ROOMS);
    run(&mut desk, &format!("{HIRE}stake pool={pool} staker=7 amount=10_000_000 signer=7"));
    let line = |&(name, offer, amount): &(&str, i64, i64)| match name {
        "pay" => format!("pay pool={pool} reply=2 invoice={offer} beneficiary=6 amount={amount} signer=2\n"),
        "reserve" => format!("reserve pool={pool} offer={offer} amount={amount} signer=2\n"),
        _ => format!("claim pool={pool} offer={offer} lender=6 amount={amount} signer=2\n"),
    };
    told(&mut desk, &calls.iter().map(line).collect::<String>())
}

#[test]
fn k7_half_of_one_is_nothing() {
    assert_eq!(told_in(0, &[("pay", 5, 1)]), [(0, 0, 0)]);
}

#[test]
fn k8_a_tier_grants_up_to_the_cap_of_the_greatest_amount() {
    let calls = [("reserve", 4, 1_000_000), ("reserve", 4, 1_000_000), ("reserve", 4, 2_000_000)];
    assert_eq!(told_in(1, &calls), [(0, 750_000, 0), (0, 0, 0), (0, 750_000, 0)]);
}

#[test]
fn k9_flat_reservations_add_up() {
    let calls = [("reserve", 4, 1_000_000), ("reserve", 4, 1_000_000)];
    assert_eq!(told_in(3, &calls), [(0, 1_000_000, 0), (0, 1_000_000, 0)]);
}

#[test]
fn k10_a_pool_that_holds_less_than_it_reserved() {
    let calls = [("reserve", 1, 6_000_000), ("reserve", 2, 4_000_000), ("pay", 5, 5_000_000), ("claim", 1, 6_000_000)];
    assert_eq!(told_in(2, &calls)[3], (0, 5_000_000, 1_000_000));
    assert_eq!(told_in(3, &calls)[3], (0, 1_000_000, 5_000_000));
}

#[test]
fn k11_risk_on_its_edges() {
    assert_eq!(assess_risk(2_592_000, 0, 0, 1), 1);
    assert_eq!(assess_risk(2_591_999, 0, 0, 999_999_999), 0);
    assert_eq!(assess_risk(0, 0, 0, 0), 2);
    assert_eq!(assess_risk(0, 0, 1, 1_000_000_000), 2);
}

#[test]
fn k12_a_clock_that_goes_back_earns_nothing_and_is_kept() {
    let mut desk = fresh(ROOMS);
    run(&mut desk, "stake pool=1 staker=7 amount=2_000_000 now=1000 signer=7");
    run(&mut desk, "stake pool=1 staker=7 amount=1 now=400 signer=7");
    assert_eq!(rows(&desk, "stake"), ["1 7 2000001 400 0"]);
}
