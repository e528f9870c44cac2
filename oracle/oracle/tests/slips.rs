//! Document 01's "Slips to shut off".

mod support;

use support::{accrued, fresh, on, rows, run, told, HIRE, LIMIT};

/// A pool that 7 and 8 lose whole after 8 has banked a unit: 8's row is kept for its accrual alone.
fn wiped(pool: u8) -> String {
    let rate = if pool == 3 { "rate pool=3 rate=1000 signer=1\n" } else { "" };
    format!(
        "{HIRE}{rate}stake pool={pool} staker=7 amount=1_000_000 signer=7
         stake pool={pool} staker=8 amount=1_000_000 signer=8
         stake pool={pool} staker=8 amount=1_000_000 now=31_536_000 signer=8
         pay pool={pool} reply=2 invoice=5 beneficiary=6 amount=3_000_000 now=31_536_000 signer=2\n"
    )
}

#[test]
fn a_loss_that_wipes_a_stake_keeps_its_accrual() {
    for pool in [2, 3] {
        let mut desk = fresh((8, 8));
        run(&mut desk, &wiped(pool));
        assert_eq!(rows(&desk, "stake"), [format!("{pool} 8 0 0 100000")]);
        assert_eq!(accrued(&desk, pool.into(), 8, 99_000_000), 100_000);
    }
}

#[test]
fn a_wiped_row_is_no_last_sharer() {
    for pool in [2, 3] {
        let mut desk = fresh((8, 8));
        let more = format!(
            "stake pool={pool} staker=6 amount=1_000_001 now=31_536_000 signer=6
             stake pool={pool} staker=7 amount=1_000_000 now=31_536_000 signer=7
             pay pool={pool} reply=2 invoice=5 beneficiary=9 amount=1 now=31_536_000 signer=2"
        );
        run(&mut desk, &(wiped(pool) + &more));
        let left = [
            format!("{pool} 6 1000001 31536000 0"),
            format!("{pool} 7 999999 31536000 0"),
            format!("{pool} 8 0 0 100000"),
        ];
        assert_eq!(rows(&desk, "stake"), left);
    }
}

/// -3 times 1 divided by 2 is -1 and not -2.
#[test]
fn a_negative_share_is_truncated_toward_zero() {
    for pool in [2, 3] {
        let balances = if pool == 2 { "0 0 2 0" } else { "0 0 0 2" };
        let tables = format!("stake {pool} 7 -3 9 0\nstake {pool} 8 5 9 0\nbalances {balances}\nsettings 1 2 0 0");
        let mut desk = on(&tables);
        run(&mut desk, &format!("pay pool={pool} reply=2 invoice=5 beneficiary=6 amount=1 signer=2"));
        assert_eq!(rows(&desk, "stake"), [format!("{pool} 7 -2 9 0"), format!("{pool} 8 3 9 0")]);
    }
}

#[test]
fn a_tier_claim_may_take_what_others_reserved() {
    for (pool, expected) in [(2, (0, 800, 0)), (3, (0, 200, 600))] {
        let mut desk = fresh((8, 8));
        let calls = format!(
            "{HIRE}stake pool={pool} staker=7 amount=1_000_000 signer=7
             reserve pool={pool} offer=1 amount=800 signer=2
             reserve pool={pool} offer=2 amount=999_200 signer=2
             withdraw pool={pool} staker=7 amount=600 signer=7
             claim pool={pool} offer=1 lender=6 amount=800 signer=2"
        );
        assert_eq!(told(&mut desk, &calls).last(), Some(&expected));
    }
}

#[test]
fn a_withdrawal_may_leave_less_than_the_least_stake() {
    for pool in 0..4 {
        let mut desk = fresh((8, 8));
        let calls = format!(
            "stake pool={pool} staker=7 amount=2_000_000 signer=7
             withdraw pool={pool} staker=7 amount=1_999_999 now=5 signer=7"
        );
        assert_eq!(told(&mut desk, &calls), [(0, 0, 0), (0, 0, 0)]);
        assert_eq!(rows(&desk, "stake"), [format!("{pool} 7 1 5 0")]);
    }
}

#[test]
fn the_cap_of_the_greatest_amount_is_whole() {
    for (pool, cap) in [(0, 5_000), (1, 7_500), (2, 10_000)] {
        let granted = LIMIT / 10_000 * cap;
        let mut desk = fresh((8, 8));
        let calls = format!(
            "{HIRE}stake pool={pool} staker=7 amount={LIMIT} signer=7
             reserve pool={pool} offer=1 amount={LIMIT} signer=2
             pay pool={pool} reply=2 invoice=5 beneficiary=6 amount={LIMIT} signer=2"
        );
        assert_eq!(told(&mut desk, &calls)[2..], [(0, granted, 0), (0, granted, 0)]);
    }
}
