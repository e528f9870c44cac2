//! Lookups: where a row is or would be, and how many rows were read to tell it.

/// The answer of a lookup.
#[derive(Clone, Copy, Debug, PartialEq, Eq)]
pub struct Lookup {
    pub place: Place,
    /// How many rows were read: at most as many as the number of used rows has binary digits, and 0 where none is used. Not in it
    /// is what comes before, where the tables are tested and their used rows counted.
    pub reads: usize,
}

/// A place among the used rows, from 0 on.
#[derive(Clone, Copy, Debug, PartialEq, Eq)]
pub enum Place {
    /// The row is there.
    Row(usize),
    /// There is no such row; put in, it would be there.
    Gap(usize),
}

/// Code, whether it is a row or a gap, its place, and the rows read.
pub(crate) const LOOKUP_WORDS: usize = 4;

impl Lookup {
    /// Of an answer whose code is Done.
    pub(crate) fn from_words(words: [u64; LOOKUP_WORDS]) -> Lookup {
        let [_, row, place, reads] = words;
        let place = match row {
            0 => Place::Gap(place as usize),
            1 => Place::Row(place as usize),
            other => panic!("the library answered {other} for a row or a gap"),
        };
        Lookup { place, reads: reads as usize }
    }
}
