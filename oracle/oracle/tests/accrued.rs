//! The accrued query: the banked sum and the running yield together, signed.

mod support;

use oracle::Question;
use support::{on, LAST_TIME, LIMIT};

const OVER_LIMIT: (u8, i64) = (10, 0);

fn done(sum: i64) -> (u8, i64) {
    (0, sum)
}

/// Code and sum of account 7's row at a time. The flat pool's rate is the Balanced pool's, 500.
fn shown(pool: u8, stake: i64, since: u64, banked: i64, now: u64) -> (u8, i64) {
    let balances: Vec<String> = (0..4).map(|each| if each == pool { stake } else { 0 }.to_string()).collect();
    let row = format!("stake {pool} 7 {stake} {since} {banked}");
    let desk = on(&format!("{row}\nbalances {}\nsettings 1 0 0 500", balances.join(" ")));
    let answer = desk.ask(&Question::Accrued { pool: pool.into(), account: 7, now });
    assert_eq!(answer.second, 0);
    (answer.code as u8, answer.first)
}

/// Both have a yield of 500; the module computes them in calls of their own.
const POOLS: [u8; 2] = [1, 3];

#[test]
fn below_zero_the_running_yield_is_negative_and_truncated_toward_zero() {
    for pool in POOLS {
        let at = |banked, now| shown(pool, -1_000_000, 0, banked, now);
        assert_eq!([at(0, 630), at(0, 631)], [done(0), done(-1)]);
        assert_eq!([at(5, 630), at(5, 631)], [done(5), done(4)]);
        assert_eq!([at(5, 1_261), at(5, 1_262)], [done(4), done(3)]);
    }
}

#[test]
fn above_zero_it_is_positive_and_truncated_toward_zero() {
    for pool in POOLS {
        let at = |banked, now| shown(pool, 1_000_000, 0, banked, now);
        assert_eq!([at(0, 630), at(0, 631), at(5, 630), at(5, 631)], [done(0), done(1), done(5), done(6)]);
    }
}

#[test]
fn a_time_before_since_earns_nothing() {
    for pool in POOLS {
        for stake in [-1_000_000, 1_000_000] {
            for now in [0, 999, 1_000, 1_630] {
                assert_eq!(shown(pool, stake, 1_000, 5, now), done(5), "{stake} at {now}");
            }
            assert_eq!(shown(pool, stake, 1_000, 5, 1_631), done(5 + stake.signum()));
        }
    }
}

#[test]
fn a_stake_of_zero_shows_the_banked_sum_at_any_time() {
    for pool in POOLS {
        for now in [0, 631, 630_720_000, LAST_TIME] {
            assert_eq!(shown(pool, 0, 0, 5, now), done(5));
        }
    }
}

/// Twenty years of 500 earn a stake's own size, and the second after them 1,585,489 more of 10^15.
#[test]
fn sums_at_their_limits_and_one_beyond() {
    const TWENTY_YEARS: u64 = 630_720_000;
    for pool in POOLS {
        let below = |banked, now| shown(pool, -LIMIT, 0, banked, now);
        assert_eq!(below(0, TWENTY_YEARS), done(-LIMIT));
        assert_eq!(below(0, TWENTY_YEARS + 1), OVER_LIMIT);
        assert_eq!(below(1_585_489, TWENTY_YEARS + 1), done(-LIMIT));
        assert_eq!(below(1_585_488, TWENTY_YEARS + 1), OVER_LIMIT);
        let above = |banked, now| shown(pool, LIMIT, 0, banked, now);
        assert_eq!(above(0, TWENTY_YEARS), done(LIMIT));
        assert_eq!(above(1, TWENTY_YEARS), OVER_LIMIT);
        assert_eq!(above(1_585_489, TWENTY_YEARS - 1), done(LIMIT - 1));
        assert_eq!(above(1_585_490, TWENTY_YEARS - 1), done(LIMIT));
        assert_eq!(above(1_585_491, TWENTY_YEARS - 1), OVER_LIMIT);
    }
}

/// A yield far beyond its limit is no sum, whichever sign it has and whatever is banked.
#[test]
fn the_largest_yields() {
    for pool in POOLS {
        for stake in [-LIMIT, LIMIT] {
            assert_eq!(shown(pool, stake, 0, LIMIT, LAST_TIME), OVER_LIMIT);
        }
    }
}
