//! The proved library by its face for Rust (bindings/rust): slices in, codes of document 01 out. Any words may be lent, and any answer's
//! length asked for.

use pasumorip::face;

pub use face::{write_head, write_record, Question as Query};
pub use pasumorip::log::Row;

/// Stakes, offers and books.
pub type Lent<'a> = [&'a mut [u64]; 3];

/// The same, to be read.
pub type Shown<'a> = [&'a [u64]; 3];

fn lent([stakes, offers, books]: Lent) -> face::Lent {
    face::Lent { stakes, offers, books }
}

pub fn fresh(tables: Lent, admin: u64) -> u8 {
    face::fresh(lent(tables), admin)
}

pub fn open(tables: Lent, head: &[u8]) -> u8 {
    face::open(lent(tables), head)
}

pub fn apply(tables: Lent, record: &[u8], answer: &mut [u64]) -> u8 {
    face::apply(lent(tables), record, answer)
}

fn shown([stakes, offers, books]: Shown) -> face::Shown {
    face::Shown { stakes, offers, books }
}

pub fn query(tables: Shown, query: Query, answer: &mut [u64]) -> u8 {
    face::query(shown(tables), query, answer)
}

pub fn look_up_stake(tables: Shown, pool: u64, account: u64, answer: &mut [u64]) -> u8 {
    face::look_up_stake(shown(tables), pool, account, answer)
}

pub fn look_up_offer(tables: Shown, pool: u64, offer: u64, answer: &mut [u64]) -> u8 {
    face::look_up_offer(shown(tables), pool, offer, answer)
}

pub fn replay(tables: Lent, records: &[u8], text: &mut [u8], progress: &mut [u64]) -> u8 {
    face::replay(lent(tables), records, text, progress)
}

pub use face::assess_risk;
