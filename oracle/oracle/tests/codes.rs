//! Each answer code of each operation that can give it, and their order.

mod support;

use support::{fresh, last_code, on, run, HIRE, LAST_TIME, LIMIT};

/// Each operation in a form that a fresh set with payer 2, a stake of 7 and an offer 4 in the Balanced pool takes.
const GOOD: [&str; 9] = [
    "stake pool=1 staker=7 amount=1 signer=7",
    "withdraw pool=1 staker=7 amount=1 signer=7",
    "pay pool=1 reply=2 invoice=5 beneficiary=6 amount=1000 signer=2",
    "reserve pool=1 offer=4 amount=2000 signer=2",
    "claim pool=1 offer=4 lender=6 amount=1 signer=2",
    "rate pool=3 rate=5 signer=1",
    "pause signer=1",
    "unpause signer=1",
    "payout_caller caller=3 signer=1",
];

const START: &str = "payout_caller caller=2 signer=1
    stake pool=1 staker=7 amount=2_000_000 signer=7
    reserve pool=1 offer=4 amount=1000 signer=2\n";

fn code(calls: &str) -> u8 {
    last_code(&mut fresh((4, 4)), &format!("{START}{calls}"))
}

#[test]
fn done() {
    for call in GOOD {
        assert_eq!(code(call), 0, "{call}");
    }
}

#[test]
fn malformed_whatever_the_operation() {
    for call in GOOD {
        let later = format!("now={}", LAST_TIME + 1);
        for wrong in [
            later.as_str(),
            "signer=0",
            "spare=0000000001",
            "spare=0100000000",
            "operation=0",
            "operation=10",
            "pool=4",
        ] {
            assert_eq!(code(&format!("{call} {wrong}")), 1, "{call} {wrong}");
        }
        assert_eq!(code(&format!("{call} now={LAST_TIME}")), 0, "{call}");
    }
}

#[test]
fn malformed_by_a_number_missing() {
    for at in [0, 1, 2, 3, 4, 8] {
        assert_eq!(code(&format!("{} subject=0", GOOD[at])), 1, "{}", GOOD[at]);
    }
    for at in [2, 4] {
        assert_eq!(code(&format!("{} other=0", GOOD[at])), 1, "{}", GOOD[at]);
    }
}

#[test]
fn malformed_by_a_field_out_of_use() {
    let unused: [(&str, &[usize]); 5] = [
        ("pool=1", &[6, 7, 8]),
        ("reply=2", &[0, 1, 3, 4, 5, 6, 7, 8]),
        ("subject=9", &[5, 6, 7]),
        ("other=9", &[0, 1, 3, 5, 6, 7, 8]),
        ("amount=1", &[6, 7, 8]),
    ];
    for (field, operations) in unused {
        for at in operations {
            assert_eq!(code(&format!("{} {field}", GOOD[*at])), 1, "{} {field}", GOOD[*at]);
        }
    }
    assert_eq!(code("pay pool=1 reply=3 invoice=5 beneficiary=6 amount=1000 signer=2"), 1);
    for rate in ["rate pool=2 rate=5 signer=1", "rate pool=3 rate=-1 signer=1"] {
        assert_eq!(code(rate), 1, "{rate}");
    }
}

#[test]
fn bad_tables_after_malformed_and_before_all_else() {
    for call in GOOD {
        let mut desk = on("settings 1 2 1 0\nbalances 0 1 0 0");
        assert_eq!(last_code(&mut desk, call), 2, "{call}");
        assert_eq!(last_code(&mut desk, &format!("{call} signer=0")), 1, "{call}");
    }
}

#[test]
fn paused_but_for_flat_withdrawals_and_the_pause_itself() {
    let flat = "stake pool=3 staker=7 amount=1_000_000 signer=7\n";
    for (at, call) in GOOD.iter().enumerate() {
        let expected = if [6, 7].contains(&at) { 0 } else { 3 };
        assert_eq!(code(&format!("pause signer=1\n{call}")), expected, "{call}");
    }
    let withdraw = "withdraw pool=3 staker=7 amount=1 signer=7";
    assert_eq!(code(&format!("{flat}pause signer=1\n{withdraw}")), 0);
    assert_eq!(code("pause signer=1\nunpause signer=1\nstake pool=1 staker=7 amount=1 signer=7"), 0);
}

#[test]
fn no_payer() {
    for call in &GOOD[2..5] {
        assert_eq!(last_code(&mut fresh((4, 4)), &format!("{call} signer=9 amount=0 ")), 4, "{call}");
        assert_eq!(last_code(&mut fresh((4, 4)), &format!("pause signer=1\n{call}")), 3, "{call}");
    }
}

#[test]
fn not_allowed() {
    for call in GOOD {
        assert_eq!(code(&format!("{call} signer=9")), 5, "{call}");
    }
    // The signer is tested before the amount and its limit.
    for call in &GOOD[..5] {
        for amount in [0, LIMIT + 1] {
            assert_eq!(code(&format!("{call} signer=9 amount={amount}")), 5, "{call}");
        }
    }
    assert_eq!(code("rate pool=3 rate=4294967296 signer=9"), 5);
}

#[test]
fn invalid_input() {
    for call in &GOOD[..5] {
        for amount in [0, -1, i64::MIN] {
            assert_eq!(code(&format!("{call} amount={amount}")), 6, "{call}");
        }
    }
    // An amount of 0 comes before the registry's reply.
    assert_eq!(code("pay pool=1 reply=0 invoice=5 beneficiary=6 amount=0 signer=2"), 6);
    for pool in 0..4 {
        let stake = |amount| format!("stake pool={pool} staker=8 amount={amount} signer=8");
        assert_eq!(code(&stake(999_999)), 6);
        assert_eq!(code(&stake(1_000_000)), 0);
    }
}

#[test]
fn registry_replies() {
    for pool in 0..4 {
        for (reply, expected) in [(0, 7), (1, 8), (2, 0)] {
            let call = format!("pay pool={pool} reply={reply} invoice=5 beneficiary=6 amount=1000 signer=2");
            assert_eq!(code(&call), expected, "{call}");
        }
        let large = format!("pay pool={pool} reply=0 invoice=5 beneficiary=6 amount={} signer=2", LIMIT + 1);
        assert_eq!(code(&large), 10);
    }
}

#[test]
fn insufficient_balance() {
    assert_eq!(code("withdraw pool=1 staker=7 amount=2_000_001 signer=7"), 9);
    assert_eq!(code(&format!("withdraw pool=1 staker=7 amount={} signer=7", i64::MAX)), 9);
    assert_eq!(code("withdraw pool=0 staker=7 amount=1 signer=7"), 9);
    assert_eq!(code("claim pool=1 offer=5 lender=6 amount=1 signer=2"), 9);
    assert_eq!(code("claim pool=3 offer=4 lender=6 amount=1 signer=2"), 9);
    let claim = "claim pool=1 offer=4 lender=6 amount=750 signer=2\n";
    assert_eq!(code(&format!("{claim}{claim}")), 9);
}

#[test]
fn amounts_and_rates_over_their_limits() {
    for at in [0, 2, 3, 4] {
        assert_eq!(code(&format!("{} amount={}", GOOD[at], LIMIT + 1)), 10, "{}", GOOD[at]);
        assert_eq!(code(&format!("{} amount={}", GOOD[at], i64::MAX)), 10, "{}", GOOD[at]);
    }
    for (rate, expected) in [(1_000_000, 0), (1_000_001, 10), (4_294_967_296, 10), (i64::MAX, 10)] {
        assert_eq!(code(&format!("rate pool=3 rate={rate} signer=1")), expected);
    }
    // The limit comes before the least stake.
    let mut desk = on(&format!("stake 1 7 -{LIMIT} 0 0\nbalances 0 -{LIMIT} 0 0\nsettings 1 2 0 0"));
    assert_eq!(last_code(&mut desk, &format!("stake pool=1 staker=7 amount={} signer=7", LIMIT + 1)), 10);
    assert_eq!(last_code(&mut desk, &format!("stake pool=1 staker=7 amount={LIMIT} signer=7")), 6);
}

#[test]
fn figures_that_would_pass_their_limits() {
    let most = format!("stake pool=3 staker=7 amount={LIMIT} signer=7\n");
    assert_eq!(code(&most), 0);
    assert_eq!(code(&format!("{most}stake pool=3 staker=7 amount=1 signer=7")), 10);
    let two = format!("{most}stake pool=3 staker=8 amount={LIMIT} signer=8\n");
    let reserve = format!("reserve pool=3 offer=4 amount={LIMIT} signer=2\n");
    assert_eq!(code(&format!("{two}{reserve}")), 0);
    assert_eq!(code(&format!("{two}{reserve}reserve pool=3 offer=4 amount=1 signer=2")), 10);
}

/// At a yield of 1,000 a stake of 10^15 earns 10^14 a year, so that ten years and a second bring the accrual past its limit.
#[test]
fn accruals_that_would_pass_their_limits() {
    let most = format!("stake pool=2 staker=7 amount={} signer=7\n", LIMIT - 1_000_000);
    for (now, expected) in [(315_360_000, 0), (315_360_001, 10)] {
        for call in ["stake pool=2 staker=7 amount=1 signer=7", "withdraw pool=2 staker=7 amount=1 signer=7"] {
            assert_eq!(code(&format!("{most}{call} now={now}")), expected, "{call} {now}");
        }
    }
    let flat = format!("rate pool=3 rate=1000 signer=1\nstake pool=3 staker=7 amount={LIMIT} signer=7\n");
    assert_eq!(code(&format!("{flat}rate pool=3 rate=0 now=315_360_000 signer=1")), 0);
    assert_eq!(code(&format!("{flat}rate pool=3 rate=0 now=315_360_001 signer=1")), 10);
}

/// The second but last row's negative share goes onto a last stake that is at its limit already.
#[test]
fn losses_that_would_pass_a_stakes_limit() {
    for pool in [2, 3] {
        let figures = |mine: &str| (0..4).map(|p| if p == pool { mine } else { "0" }).collect::<Vec<_>>().join(" ");
        let tables = format!(
            "stake {pool} 6 {LIMIT} 9 0\nstake {pool} 7 {LIMIT} 9 0\nstake {pool} 8 -5 9 0\nstake {pool} 9 -{LIMIT} 9 0
             offer {pool} 4 {LIMIT} 0\nbalances {}\nunpaid {}\nsettings 1 2 0 0",
            figures("999999999999995"),
            figures(&LIMIT.to_string()),
        );
        let pay = |amount: i64| format!("pay pool={pool} reply=2 invoice=5 beneficiary=6 amount={amount} signer=2");
        let claim = |amount: i64| format!("claim pool={pool} offer=4 lender=6 amount={amount} signer=2");
        assert_eq!(last_code(&mut on(&tables), &pay(LIMIT)), 10);
        assert_eq!(last_code(&mut on(&tables), &claim(LIMIT)), 10);
        // A fifth of the balance less one unit shares out so that the negative row gives up nothing.
        assert_eq!(last_code(&mut on(&tables), &pay(199_999_999_999_998)), 0);
    }
}

#[test]
fn table_full() {
    let mut desk = fresh((2, 1));
    let start = format!(
        "{HIRE}stake pool=1 staker=7 amount=2_000_000 signer=7
         stake pool=3 staker=7 amount=2_000_000 signer=7
         reserve pool=3 offer=4 amount=1000 signer=2\n"
    );
    assert!(run(&mut desk, &start).iter().all(|answer| answer.code as u8 == 0));
    assert_eq!(last_code(&mut desk, "stake pool=3 staker=8 amount=1_000_000 signer=8"), 11);
    assert_eq!(last_code(&mut desk, "stake pool=3 staker=7 amount=1 signer=7"), 0);
    assert_eq!(last_code(&mut desk, "reserve pool=3 offer=5 amount=1 signer=2"), 11);
    assert_eq!(last_code(&mut desk, "reserve pool=3 offer=4 amount=1 signer=2"), 0);
    // Granting 0 needs no row.
    assert_eq!(last_code(&mut desk, "reserve pool=2 offer=5 amount=1 signer=2"), 0);
    // A row freed is used again.
    let again = "withdraw pool=3 staker=7 amount=2_000_001 signer=7\nstake pool=0 staker=8 amount=1_000_000 signer=8";
    assert_eq!(last_code(&mut desk, again), 0);
}
