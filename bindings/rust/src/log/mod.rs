//! A log: a head of 16 bytes, records of 48, and what is left over.
//!
//! It is read record by record ([`LogReader`]), and written into a lent buffer by the library: the head of an admin, then a record for
//! each [`Row`] of a database ([`write_record`]) or for each [`Call`](crate::Call) ([`write_call`]). A write that is refused changes nothing.

mod reader;
mod writer;

pub use crate::row::Row;
pub(crate) use reader::fill;
pub use reader::{admin, LogReader};
pub use writer::{head, record, write_call, write_head, write_record};

/// The length of a head in bytes.
pub const HEAD_BYTES: usize = 16;
/// The version of log that is read and written.
pub const VERSION: u16 = 1;
