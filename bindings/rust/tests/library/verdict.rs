//! The library's own verdict on a head and on a record, by reading them.

use pasumorip::{Account, Code, Rooms, Tables};

/// The admin of the books that a head opens.
pub fn opened_for(head: &[u8]) -> Option<Account> {
    let tables = Tables::open(Rooms { stakes: 1, offers: 1 }, head).ok()?;
    Some(tables.books().expect("a fresh set").settings.admin)
}

/// On tables without a row, what is not Malformed is BadTables.
pub fn is_malformed(record: &[u8]) -> bool {
    let mut none = Tables::from_words(Vec::new(), Vec::new(), Vec::new());
    match none.apply_record(record).code {
        Code::Malformed => true,
        Code::BadTables => false,
        other => panic!("{other} on no tables"),
    }
}
