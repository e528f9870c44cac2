//! What lookups are of.

use crate::cases::{Case, InCases};
use oracle::limits::{MOST_OFFERS, MOST_STAKES};
use oracle::{Code, Found, Lookup};

/// A lookup and what the oracle told of it.
pub struct Looked {
    pub lookup: Lookup,
    pub told: Result<Found, Code>,
}

impl Looked {
    fn found(&self, holds: impl Fn(&Found) -> bool) -> bool {
        self.told.as_ref().is_ok_and(holds)
    }

    fn gap(&self, holds: impl Fn(&Found) -> bool) -> bool {
        self.found(|found| !found.row && holds(found))
    }

    fn in_stakes(&self) -> bool {
        matches!(self.lookup, Lookup::Stake { .. })
    }
}

impl InCases for Looked {
    const CASES: &'static [Case<Looked>] = &[
        ("of a stake row that is there", |looked| looked.in_stakes() && looked.found(|found| found.row)),
        ("of a place for a new stake row", |looked| looked.in_stakes() && looked.gap(|_| true)),
        ("of an offer row that is there", |looked| !looked.in_stakes() && looked.found(|found| found.row)),
        ("of a place for a new offer row", |looked| !looked.in_stakes() && looked.gap(|_| true)),
        ("of the first row", |looked| looked.found(|found| found.row && found.place == 0)),
        ("of a place in front of the first row", |looked| looked.gap(|found| found.place == 0 && found.used > 0)),
        ("of a place between two rows", |looked| looked.gap(|found| found.place > 0 && found.place < found.used)),
        ("of the last row", |looked| looked.found(|found| found.row && found.place + 1 == found.used)),
        ("of a place behind the last row", |looked| looked.gap(|found| found.place == found.used && found.used > 0)),
        ("that read as many rows as the number of used rows has binary digits", |looked| {
            looked.found(|found| found.used > 0 && found.read_all_digits())
        }),
        ("that read fewer", |looked| looked.found(|found| !found.read_all_digits())),
        ("in an empty table, that read none", |looked| looked.found(|found| found.used == 0)),
        ("among a power of two of rows", |looked| looked.found(|found| found.used.is_power_of_two())),
        ("among one row fewer than a power of two", |looked| {
            looked.found(|found| found.used > 0 && (found.used + 1).is_power_of_two())
        }),
        ("among 1,024 stake rows", |looked| looked.in_stakes() && looked.found(|found| found.used == MOST_STAKES)),
        ("among 512 offer rows", |looked| !looked.in_stakes() && looked.found(|found| found.used == MOST_OFFERS)),
        ("malformed, refused", |looked| looked.told == Err(Code::Malformed)),
        ("in tables that are not well formed, refused", |looked| looked.told == Err(Code::BadTables)),
    ];
}
