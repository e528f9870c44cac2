//! What accrued queries are of.

use super::plain::Accrued;
use crate::cases::{Case, InCases};
use oracle::limits::LIMIT;

impl InCases for Accrued {
    const CASES: &'static [Case<Accrued>] = &[
        ("of a stake below 0", |asked| asked.row.stake < 0),
        ("of a stake above 0", |asked| asked.row.stake > 0),
        ("of a stake of 0 with a sum banked", |asked| asked.row.stake == 0 && asked.row.banked > 0),
        ("of an account without a row", |asked| asked.row.stake == 0 && asked.row.banked == 0),
        ("whose sum is below 0", |asked| asked.sum() < 0),
        ("whose sum is -10^15", |asked| asked.sum() == -LIMIT),
        ("whose sum is one below -10^15, refused", |asked| asked.sum() == -LIMIT - 1),
        ("whose sum is 10^15", |asked| asked.sum() == LIMIT),
        ("whose sum is one above 10^15, refused", |asked| asked.sum() == LIMIT + 1),
        ("with a time before its stake's `since`", |asked| asked.row.stake != 0 && asked.now < asked.row.since),
        ("at the second that brings the first unit, of a stake below 0", |asked| {
            asked.running() == -1 && asked.row.at(asked.now.saturating_sub(1)).running() == 0
        }),
    ];
}
