//! The three lent tables as flat words, of any length and content.

use oracle::{Desk, Tables};

const STAKE_ROW: usize = 5;
const OFFER_ROW: usize = 4;
const BOOKS: usize = 12;

#[derive(Clone, Debug, PartialEq, Eq)]
pub struct Words {
    pub stakes: Vec<u64>,
    pub offers: Vec<u64>,
    pub books: Vec<u64>,
}

impl Words {
    pub fn of(tables: &Tables) -> Words {
        let Tables { stakes, offers, balances, unpaid, settings } = tables;
        Words {
            stakes: stakes.as_flattened().to_vec(),
            offers: offers.as_flattened().to_vec(),
            books: [*balances, *unpaid, *settings].concat(),
        }
    }

    /// None where these are no whole rows or no twelve words of books.
    pub fn tables(&self) -> Option<Tables> {
        let (stakes, stakes_rest) = self.stakes.as_chunks::<STAKE_ROW>();
        let (offers, offers_rest) = self.offers.as_chunks::<OFFER_ROW>();
        if !stakes_rest.is_empty() || !offers_rest.is_empty() || self.books.len() != BOOKS {
            return None;
        }
        let four = |at: usize| self.books[at..at + 4].try_into().expect("four words");
        Some(Tables {
            stakes: stakes.to_vec(),
            offers: offers.to_vec(),
            balances: four(0),
            unpaid: four(4),
            settings: four(8),
        })
    }

    /// The oracle at these words. Where they are no rows at all it has none, which is as badly formed.
    pub fn desk(&self) -> Desk {
        let none = || Tables { stakes: vec![], offers: vec![], balances: [0; 4], unpaid: [0; 4], settings: [0; 4] };
        Desk::open(self.tables().unwrap_or_else(none))
    }
}
