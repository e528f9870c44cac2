//! The limits within which the engine works. It tests them itself; they stand here for those who explain its answers.

/// The last time that a call may have.
pub const LAST_TIME: u64 = 17_179_869_183;
/// The greatest amount, stake, accrual and reserved sum. Stakes and accrued sums lie within it below zero too.
pub const GREATEST_AMOUNT: i64 = 1_000_000_000_000_000;
/// The greatest rate of the flat pool, in basis points.
pub const GREATEST_RATE: i64 = 1_000_000;
/// The least that a stake may be after staking.
pub const LEAST_STAKE: i64 = 1_000_000;
/// The most rows of stakes that may be lent.
pub const MOST_STAKES: usize = 1_024;
/// The most rows of offers that may be lent.
pub const MOST_OFFERS: usize = 512;
