//! The same rules as ordinary Rust written for speed: a sorted vector of structs for each pool, 128-bit products, text by a buffer.
//! It is what the proved engine's speed is measured against; its tests hold it to the oracle.

mod answer;
mod decimal;
mod engine;
mod loss;
mod pool;
mod record;
mod row;

pub use answer::{Answer, Code, Way};
pub use engine::{Engine, Settings};
pub use pool::{Offer, Pool, Stake};
pub use record::Record;
pub use row::{Refusal, Row};

pub const LIMIT: i64 = 1_000_000_000_000_000;
pub const LAST_TIME: u64 = 17_179_869_183;
pub const GREATEST_RATE: i64 = 1_000_000;
pub const LEAST_STAKE: i64 = 1_000_000;
pub const FLAT: u8 = 3;
