//! Every limit that document 01 adds.

/// The greatest stake, up or down, accrual, reserved sum and amount.
pub const LIMIT: i128 = 1_000_000_000_000_000;

pub const LAST_TIME: u64 = 17_179_869_183;

pub const GREATEST_RATE: i64 = 1_000_000;

pub const MOST_STAKES: usize = 1_024;

pub const MOST_OFFERS: usize = 512;

/// Conservative, Balanced, Aggressive, flat.
pub const POOLS: u8 = 4;

pub const FLAT: u8 = 3;
