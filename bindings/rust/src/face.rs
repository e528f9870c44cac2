//! The library's C functions, and the same over slices: all unsafe code of this crate.
//!
//! A function of the library asks for valid pointers that do not overlap, and for nothing else.

use crate::row::Row;

/// The three lent tables, to be written.
pub struct Lent<'a> {
    pub stakes: &'a mut [u64],
    pub offers: &'a mut [u64],
    pub books: &'a mut [u64],
}

/// The three lent tables, to be read.
pub struct Shown<'a> {
    pub stakes: &'a [u64],
    pub offers: &'a [u64],
    pub books: &'a [u64],
}

/// What a query asks for: its kind, and 0 for each field that the kind does not use.
#[derive(Clone, Copy, Debug, PartialEq, Eq)]
pub struct Question {
    pub kind: u64,
    pub pool: u64,
    pub number: u64,
    pub time: u64,
}

mod c {
    extern "C" {
        pub fn pasumorip_fresh(
            stakes: *mut u64,
            stakes_words: usize,
            offers: *mut u64,
            offers_words: usize,
            books: *mut u64,
            books_words: usize,
            admin: u64,
        ) -> u8;
        pub fn pasumorip_open(
            stakes: *mut u64,
            stakes_words: usize,
            offers: *mut u64,
            offers_words: usize,
            books: *mut u64,
            books_words: usize,
            head: *const u8,
            head_bytes: usize,
        ) -> u8;
        pub fn pasumorip_apply(
            stakes: *mut u64,
            stakes_words: usize,
            offers: *mut u64,
            offers_words: usize,
            books: *mut u64,
            books_words: usize,
            record: *const u8,
            record_bytes: usize,
            answer: *mut u64,
            answer_words: usize,
        ) -> u8;
        pub fn pasumorip_query(
            stakes: *const u64,
            stakes_words: usize,
            offers: *const u64,
            offers_words: usize,
            books: *const u64,
            books_words: usize,
            kind: u64,
            pool: u64,
            number: u64,
            time: u64,
            answer: *mut u64,
            answer_words: usize,
        ) -> u8;
        pub fn pasumorip_look_up_stake(
            stakes: *const u64,
            stakes_words: usize,
            offers: *const u64,
            offers_words: usize,
            books: *const u64,
            books_words: usize,
            pool: u64,
            account: u64,
            answer: *mut u64,
            answer_words: usize,
        ) -> u8;
        pub fn pasumorip_look_up_offer(
            stakes: *const u64,
            stakes_words: usize,
            offers: *const u64,
            offers_words: usize,
            books: *const u64,
            books_words: usize,
            pool: u64,
            offer: u64,
            answer: *mut u64,
            answer_words: usize,
        ) -> u8;
        pub fn pasumorip_replay(
            stakes: *mut u64,
            stakes_words: usize,
            offers: *mut u64,
            offers_words: usize,
            books: *mut u64,
            books_words: usize,
            records: *const u8,
            record_bytes: usize,
            text: *mut u8,
            text_bytes: usize,
            progress: *mut u64,
            progress_words: usize,
        ) -> u8;
        pub fn pasumorip_write_head(buffer: *mut u8, buffer_bytes: usize, at: usize, admin: u64) -> u8;
        pub fn pasumorip_write_record(
            buffer: *mut u8,
            buffer_bytes: usize,
            at: usize,
            operation: u64,
            pool: u64,
            reply: u64,
            now: u64,
            signer: u64,
            subject: u64,
            other: u64,
            amount: i64,
        ) -> u8;
        pub fn pasumorip_assess_risk(age: u64, repayments: u32, defaults: u32, amount: i64) -> u8;
    }
}

/// A call of a function whose first six arguments are the lent tables.
macro_rules! lend {
    ($function:ident, $tables:expr, $($argument:expr),+) => {{
        let Lent { stakes, offers, books } = $tables;
        let (stakes_words, offers_words, books_words) = (stakes.len(), offers.len(), books.len());
        let (stakes, offers, books) = (stakes.as_mut_ptr(), offers.as_mut_ptr(), books.as_mut_ptr());
        // SAFETY: every pointer and length is of one slice, and slices that are written overlap no other.
        unsafe { c::$function(stakes, stakes_words, offers, offers_words, books, books_words, $($argument),+) }
    }};
}

/// The same of a function that only reads them.
macro_rules! show {
    ($function:ident, $tables:expr, $($argument:expr),+) => {{
        let Shown { stakes, offers, books } = $tables;
        let (stakes_words, offers_words, books_words) = (stakes.len(), offers.len(), books.len());
        let (stakes, offers, books) = (stakes.as_ptr(), offers.as_ptr(), books.as_ptr());
        // SAFETY: as above; the tables are only read.
        unsafe { c::$function(stakes, stakes_words, offers, offers_words, books, books_words, $($argument),+) }
    }};
}

pub fn fresh(tables: Lent, admin: u64) -> u8 {
    lend!(pasumorip_fresh, tables, admin)
}

pub fn open(tables: Lent, head: &[u8]) -> u8 {
    lend!(pasumorip_open, tables, head.as_ptr(), head.len())
}

pub fn apply(tables: Lent, record: &[u8], answer: &mut [u64]) -> u8 {
    lend!(pasumorip_apply, tables, record.as_ptr(), record.len(), answer.as_mut_ptr(), answer.len())
}

pub fn replay(tables: Lent, records: &[u8], text: &mut [u8], progress: &mut [u64]) -> u8 {
    let (text_bytes, progress_words) = (text.len(), progress.len());
    let (text, progress) = (text.as_mut_ptr(), progress.as_mut_ptr());
    lend!(pasumorip_replay, tables, records.as_ptr(), records.len(), text, text_bytes, progress, progress_words)
}

pub fn query(tables: Shown, question: Question, answer: &mut [u64]) -> u8 {
    let Question { kind, pool, number, time } = question;
    show!(pasumorip_query, tables, kind, pool, number, time, answer.as_mut_ptr(), answer.len())
}

pub fn look_up_stake(tables: Shown, pool: u64, account: u64, answer: &mut [u64]) -> u8 {
    show!(pasumorip_look_up_stake, tables, pool, account, answer.as_mut_ptr(), answer.len())
}

pub fn look_up_offer(tables: Shown, pool: u64, offer: u64, answer: &mut [u64]) -> u8 {
    show!(pasumorip_look_up_offer, tables, pool, offer, answer.as_mut_ptr(), answer.len())
}

pub fn write_head(buffer: &mut [u8], at: usize, admin: u64) -> u8 {
    let (bytes, length) = (buffer.as_mut_ptr(), buffer.len());
    // SAFETY: the pointer and the length are of one slice.
    unsafe { c::pasumorip_write_head(bytes, length, at, admin) }
}

pub fn write_record(buffer: &mut [u8], at: usize, row: Row) -> u8 {
    let (bytes, length) = (buffer.as_mut_ptr(), buffer.len());
    let Row { operation, pool, reply, now, signer, subject, other, amount } = row;
    // SAFETY: as above.
    unsafe { c::pasumorip_write_record(bytes, length, at, operation, pool, reply, now, signer, subject, other, amount) }
}

pub fn assess_risk(age: u64, repayments: u32, defaults: u32, amount: i64) -> u8 {
    // SAFETY: there is no pointer.
    unsafe { c::pasumorip_assess_risk(age, repayments, defaults, amount) }
}
