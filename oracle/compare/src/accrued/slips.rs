//! A few rounds find each slip of the accrued sum and meet every case, so that a run without a difference says something.

use super::aims::{round, Aimed};
use super::plain::{within_limits, Accrued, Row, DENOMINATOR};
use crate::cases::Cases;
use crate::pair::question;
use oracle::limits::LIMIT;

const SEEDS: u64 = 4;

/// All that the round of a seed asks.
fn asked(seed: u64) -> Vec<Accrued> {
    let of_tables = |Aimed { tables, queries }| {
        let books = tables.books().expect("the tables are well formed");
        let each = |query| question(query).and_then(|question| Accrued::of(&books, &question));
        queries.into_iter().map(|query| each(query).expect("the query is well formed")).collect::<Vec<_>>()
    };
    round(seed).flat_map(of_tables).collect()
}

/// Whether some query is shown another sum than it should be.
fn found(shown: fn(&Accrued) -> Option<i128>) -> bool {
    (0..SEEDS).flat_map(asked).any(|asked| shown(&asked) != asked.shown())
}

#[test]
fn every_case_is_met_by_one_round() {
    for seed in 0..100 {
        let mut cases = Cases::default();
        asked(seed).iter().for_each(|asked| cases.count(asked));
        assert_eq!(cases.missed(), None, "seed {seed}");
    }
}

#[test]
fn a_yield_rounded_down() {
    assert!(found(|asked| within_limits(asked.row.banked + asked.product().div_euclid(DENOMINATOR))));
}

#[test]
fn the_sum_truncated_and_not_the_yield() {
    assert!(found(|asked| within_limits((asked.row.banked * DENOMINATOR + asked.product()) / DENOMINATOR)));
}

#[test]
fn the_banked_sum_dropped() {
    assert!(found(|asked| within_limits(asked.running())));
    assert!(found(|asked| within_limits(if asked.row.stake < 0 { asked.running() } else { asked.sum() })));
}

#[test]
fn a_limit_itself_refused() {
    assert!(found(|asked| asked.shown().filter(|sum| *sum != -LIMIT)));
    assert!(found(|asked| asked.shown().filter(|sum| *sum != LIMIT)));
}

#[test]
fn one_beyond_a_limit_answered() {
    assert!(found(|asked| Some(asked.sum()).filter(|sum| (-LIMIT - 1..=LIMIT).contains(sum))));
    assert!(found(|asked| Some(asked.sum()).filter(|sum| (-LIMIT..=LIMIT + 1).contains(sum))));
}

#[test]
fn a_stake_of_0_that_earns_as_one_of_1() {
    assert!(found(|asked| match asked.row {
        row @ Row { stake: 0, .. } => Row { stake: 1, ..row }.at(asked.now).shown(),
        _ => asked.shown(),
    }));
}

#[test]
fn a_stake_below_0_that_shows_the_banked_sum_alone() {
    assert!(found(|asked| if asked.row.stake < 0 { Some(asked.row.banked) } else { asked.shown() }));
}

#[test]
fn a_sum_below_0_shown_as_0() {
    assert!(found(|asked| within_limits(asked.sum().max(0))));
}

#[test]
fn a_yield_before_since() {
    assert!(found(|asked| {
        let elapsed = i128::from(asked.now) - i128::from(asked.row.since);
        within_limits(asked.row.banked + asked.row.stake * asked.row.rate * elapsed / DENOMINATOR)
    }));
}
