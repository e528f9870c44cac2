//! The settlement engine of insurance pools, for Rust.
//!
//! The engine is a static library whose every function is proved to meet its contract; this crate lends it memory and gives its words
//! names. It computes no rule of its own: each answer here is the library's.
//!
//! ```
//! use pasumorip::{Account, Call, Code, Direction, Operation, Pool, Rooms, Tables, Transfer};
//!
//! let mut tables = Tables::fresh(Rooms::FULL, Account(1))?;
//! let stake = Operation::Stake { pool: Pool::Balanced, staker: Account(7), amount: 2_000_000 };
//! let answer = tables.apply(&Call { now: 1_700_000_000, signer: Account(7), operation: stake });
//! assert_eq!(answer.code, Code::Done);
//! assert_eq!(
//!     answer.transfers[0],
//!     Some(Transfer { direction: Direction::In, account: Account(7), amount: 2_000_000 })
//! );
//!
//! // A refusal changes nothing.
//! let withdraw = Operation::Withdraw { pool: Pool::Balanced, staker: Account(7), amount: 3_000_000 };
//! let answer = tables.apply(&Call { now: 1_700_000_060, signer: Account(7), operation: withdraw });
//! assert_eq!(answer.code, Code::InsufficientBalance);
//! assert_eq!(tables.stake(Pool::Balanced, Account(7)), Ok(2_000_000));
//! # Ok::<(), Code>(())
//! ```
//!
//! | To | use |
//! |---|---|
//! | keep the books of the pools | [`Tables`] |
//! | make a call | [`Call`] and [`Tables::apply`] |
//! | ask | [`Tables::stake`], [`Tables::accrued`], [`Tables::pool`], [`Tables::stakers_count`], [`Tables::offer`] |
//! | learn where a row is, and how many rows are read to find it | [`Tables::look_up_stake`], [`Tables::look_up_offer`] |
//! | read the books as rows | [`Tables::books`] |
//! | write a log, from rows of a database or from calls | [`log::write_head`], [`log::write_record`], [`log::write_call`] |
//! | read a log | [`log::LogReader`], [`record`] and [`form`] |
//! | replay a log | [`replay()`] |
//! | choose a pool for an invoice | [`assess_risk`] |
//! | lend words of any kind, and be answered words | [`face`] |

mod answer;
mod books;
mod call;
mod code;
pub mod face;
mod flaw;
pub mod form;
pub mod limits;
pub mod log;
mod lookup;
mod numbers;
mod pool;
pub mod record;
mod replay;
mod row;
mod tables;

pub use answer::{Answer, Direction, Transfer};
pub use books::{Books, OfferFigures, OfferRow, PoolFigures, Settings, StakeRow};
pub use call::{Call, Operation};
pub use code::Code;
pub use flaw::Flaw;
pub use lookup::{Lookup, Place};
pub use numbers::{Account, Invoice, Offer};
pub use pool::{assess_risk, Pool, Reply};
pub use replay::{replay, replay_watched, Ended};
pub use tables::{Rooms, Tables};
