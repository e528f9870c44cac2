//! Document 01's behaviour on top of the insurance module. Amounts, sharing, banking and caps are the module's; what stands here
//! is what document 01 marks as added: numbers and tables, limits, the order of codes, the log.

mod answer;
mod bare;
mod books;
mod desk;
mod engine;
mod figures;
pub mod limits;
mod log;
mod lookup;
mod module;
mod operation;
mod piece;
mod question;
mod random;
mod record;
mod rng;
mod tables;
mod text;
mod workers;

pub use answer::{Answer, Code, Way};
pub use bare::Bare;
pub use books::{Books, OfferRow, Settings, StakeRow};
pub use desk::Desk;
pub use engine::Engine;
pub use figures::grouped;
pub use log::{head, print_replay, Log};
pub use lookup::{binary_digits, lookup_words, Found, Key, Lookup};
pub use operation::Operation;
pub use piece::{Piece, RecordFields, Write};
pub use question::{assess_risk, Question};
pub use random::{random_log, Author};
pub use record::Record;
pub use rng::Rng;
pub use tables::{Rooms, Tables};
pub use text::{
    parse_lookups, parse_questions, parse_tables, parse_writes, print_found, print_tables, print_written, read_log,
    write_log,
};
pub use workers::{count_seed_threads, share_out};
