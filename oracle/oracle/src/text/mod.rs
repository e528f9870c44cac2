//! Logs, tables, questions, lookups and writes as text that people read and write.

mod fields;
mod log;
mod lookups;
mod questions;
mod tables;
mod writes;

pub use log::{read_log, write_log};
pub use lookups::{parse_lookups, print_found};
pub use questions::parse_questions;
pub use tables::{parse_tables, print_tables};
pub use writes::{parse_writes, print_written};
