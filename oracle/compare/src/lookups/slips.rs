//! A few rounds find each slip of a lookup and meet every case, so that a run without a difference says something.

use super::aims::{round, Aimed};
use super::cases::Looked;
use crate::cases::Cases;
use oracle::{Found, Key, Lookup};
use std::cmp::Ordering;
use std::ops::Range;

const SEEDS: u64 = 2;

/// A key looked up among those of a table's used rows.
struct Sought {
    keys: Vec<Key>,
    rooms: usize,
    wanted: Key,
}

/// Whether the row is there, its place, how many rows are read.
type Told = (bool, usize, usize);

/// The rows that are left once the middle one is read and compared with the key.
type Next = fn(Range<usize>, usize, Ordering) -> Range<usize>;

fn halved(range: Range<usize>, middle: usize, order: Ordering) -> Range<usize> {
    match order {
        Ordering::Less => middle + 1..range.end,
        _ => range.start..middle,
    }
}

fn told(keys: &[Key], wanted: Key) -> Told {
    let Found { row, place, read, .. } = Found::among(keys, wanted);
    (row, place, read.len())
}

impl Sought {
    fn told(&self) -> Told {
        told(&self.keys, self.wanted)
    }

    /// With a count by another search, among the first so many rows; one that is not used has no smaller key.
    fn searched(&self, rows: usize, next: Next) -> Told {
        let (row, place, _) = self.told();
        let (mut range, mut reads) = (0..rows, 0);
        while !range.is_empty() {
            let middle = range.start + range.len() / 2;
            let order = self.keys.get(middle).map_or(Ordering::Greater, |key| key.cmp(&self.wanted));
            range = next(range, middle, order);
            reads += 1;
        }
        (row, place, reads)
    }

    /// With a part of each key alone.
    fn by(&self, part: fn(&Key) -> u64) -> Told {
        let keys: Vec<Key> = self.keys.iter().map(|key| (0, part(key))).collect();
        told(&keys, (0, part(&self.wanted)))
    }
}

/// The lookups of a round that are answered.
fn sought(seed: u64) -> Vec<Sought> {
    let of_words = |Aimed { words, lookups }| {
        let tables = words.tables().filter(|tables| tables.well_formed());
        let each = |tables: &oracle::Tables, lookup: Lookup| {
            let oracle::Rooms { stakes, offers } = tables.rooms();
            let rooms = if matches!(lookup, Lookup::Stake { .. }) { stakes } else { offers };
            Sought { keys: lookup.keys(tables), rooms, wanted: lookup.key() }
        };
        let lookups = lookups.into_iter().filter(|lookup| !lookup.malformed());
        lookups.filter_map(|lookup| tables.as_ref().map(|tables| each(tables, lookup))).collect::<Vec<_>>()
    };
    round(seed).flat_map(of_words).collect()
}

/// Whether some lookup is told otherwise than it should be. A slip gets what it should be told.
fn found(slip: fn(&Sought, Told) -> Told) -> bool {
    (0..SEEDS).flat_map(sought).any(|sought| slip(&sought, sought.told()) != sought.told())
}

#[test]
fn every_case_is_met_by_one_round() {
    for seed in 0..20 {
        let mut cases = Cases::default();
        for Aimed { words, lookups } in round(seed) {
            let desk = words.desk();
            lookups.into_iter().for_each(|lookup| cases.count(&Looked { told: desk.look_up(&lookup), lookup }));
        }
        assert_eq!(cases.missed(), None, "seed {seed}");
    }
}

#[test]
fn a_search_without_a_slip_is_not_found() {
    assert!(!found(|sought, _| sought.searched(sought.keys.len(), halved)));
}

/// Of any rows; at the row of the place, which is there or not; at the row itself.
#[test]
fn a_look_at_the_end() {
    assert!(found(|sought, (row, place, reads)| (row, place, reads + usize::from(!sought.keys.is_empty()))));
    assert!(found(|sought, (row, place, reads)| (row, place, reads + usize::from(place < sought.keys.len()))));
    assert!(found(|_, (row, place, reads)| (row, place, reads + usize::from(row))));
}

#[test]
fn a_read_of_an_empty_table() {
    assert!(found(|_, (row, place, reads)| (row, place, reads.max(1))));
}

/// Always, or where the reads are the most that there may be.
#[test]
fn one_read_too_few() {
    assert!(found(|_, (row, place, reads)| (row, place, reads.saturating_sub(1))));
    assert!(found(|_, (row, place, reads)| (row, place, reads.min(10))));
}

/// With the one behind the last, with every room, without the last.
#[test]
fn a_beginning_with_other_rows() {
    assert!(found(|sought, _| sought.searched(sought.keys.len() + 1, halved)));
    assert!(found(|sought, _| sought.searched(sought.rooms, halved)));
    assert!(found(|sought, _| sought.searched(sought.keys.len().saturating_sub(1), halved)));
}

#[test]
fn only_one_side_halved() {
    assert!(found(|sought, _| {
        sought.searched(sought.keys.len(), |range, middle, order| match order {
            Ordering::Less => range.start + 1..range.end,
            _ => range.start..middle,
        })
    }));
    assert!(found(|sought, _| {
        sought.searched(sought.keys.len(), |range, middle, order| match order {
            Ordering::Less => middle + 1..range.end,
            _ => range.start..range.end - 1,
        })
    }));
}

#[test]
fn a_stop_at_the_row_itself() {
    assert!(found(|sought, _| {
        sought.searched(sought.keys.len(), |range, middle, order| match order {
            Ordering::Equal => middle..middle,
            _ => halved(range, middle, order),
        })
    }));
}

#[test]
fn a_search_behind_the_row_itself() {
    assert!(found(|sought, _| {
        sought.searched(sought.keys.len(), |range, middle, order| match order {
            Ordering::Greater => range.start..middle,
            _ => middle + 1..range.end,
        })
    }));
}

/// Up, down, or none behind the last row.
#[test]
fn a_gap_off_by_one() {
    assert!(found(|_, (row, place, reads)| (row, place + usize::from(!row), reads)));
    assert!(found(|_, (row, place, reads)| (row, if row { place } else { place.saturating_sub(1) }, reads)));
    assert!(found(|sought, (row, place, reads)| (row, place.min(sought.keys.len().saturating_sub(1)), reads)));
}

#[test]
fn a_row_told_as_a_gap_and_a_gap_as_a_row() {
    assert!(found(|_, (_, place, reads)| (false, place, reads)));
    assert!(found(|sought, (_, place, reads)| (place < sought.keys.len(), place, reads)));
}

#[test]
fn a_part_of_the_key_left_out() {
    assert!(found(|sought, _| sought.by(|key| key.0)));
    assert!(found(|sought, _| sought.by(|key| key.1)));
}
