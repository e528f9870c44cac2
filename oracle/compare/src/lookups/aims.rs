//! Tables and lookups aimed at where a slip would show: empty tables, numbers of used rows at which another read is due, the first row and the
//! last, and the gaps around a row.

use crate::lent::{bad, used};
use crate::words::Words;
use oracle::limits::{MOST_OFFERS, MOST_STAKES, POOLS};
use oracle::{Key, Lookup, Rng, Rooms, Tables};

/// So many rows of a table are looked up, with the gaps around them.
const ROWS: usize = 12;

/// So many tables of a round have any number of used rows, and so many are bad.
const OTHERS: usize = 4;

/// Words, and the lookups put to them.
pub struct Aimed {
    pub words: Words,
    pub lookups: Vec<Lookup>,
}

/// None, and the powers of two with one below each.
fn aimed_numbers(most: usize) -> Vec<usize> {
    let powers = (0..).map(|digits| 1 << digits).take_while(|power| *power <= most);
    powers.flat_map(|power| [power - 1, power]).collect()
}

/// Tables for each aimed number of used rows, then any, then bad ones.
pub fn round(seed: u64) -> impl Iterator<Item = Aimed> {
    let mut rng = Rng(seed);
    // Most tables of offers are long where those of stakes are short.
    let offers = aimed_numbers(MOST_OFFERS).into_iter().rev().cycle();
    let mut numbers: Vec<(usize, usize)> = aimed_numbers(MOST_STAKES).into_iter().zip(offers).collect();
    let any = |rng: &mut Rng, most: usize| rng.below(most as u64 + 1) as usize;
    numbers.extend((0..OTHERS).map(|_| (any(&mut rng, MOST_STAKES), any(&mut rng, MOST_OFFERS))));
    let good = numbers.len();
    numbers.extend((0..OTHERS).map(|_| (any(&mut rng, ROWS), any(&mut rng, ROWS))));
    numbers.into_iter().enumerate().map(move |(at, (stakes, offers))| {
        let tables = tables(&mut rng, stakes, offers);
        let lookups = around(&mut rng, &tables, ROWS);
        let words = Words::of(&tables);
        Aimed { words: if at < good { words } else { bad(&mut rng, words) }, lookups }
    })
}

/// So many used rows, at times with others behind them that are not used.
fn tables(rng: &mut Rng, stakes: usize, offers: usize) -> Tables {
    let mut rooms = |used: usize, most: usize| {
        let spare = if rng.one_in(2) { 0 } else { rng.below((most - used) as u64 + 1) as usize };
        (used + spare).max(1)
    };
    let rooms = Rooms { stakes: rooms(stakes, MOST_STAKES), offers: rooms(offers, MOST_OFFERS) };
    used(rng, rooms, Rooms { stakes, offers })
}

/// Lookups in both tables: of rows and of the gaps around them, of the ends of each pool, and malformed ones.
pub fn around(rng: &mut Rng, tables: &Tables, rows: usize) -> Vec<Lookup> {
    let mut lookups = Vec::new();
    for table in [stake, offer] {
        let keys = table((0, 1)).keys(tables);
        let wanted = picked(rng, &keys, rows).into_iter().flat_map(|key| beside(rng, key)).collect::<Vec<_>>();
        let ends = (0..POOLS.into()).flat_map(|pool| [(pool, 1), (pool, u64::MAX)]);
        lookups.extend(wanted.into_iter().chain(ends).chain([malformed(rng)]).map(table));
    }
    lookups
}

/// One lookup in each table, of a row more often than not, and a malformed one.
pub fn few(rng: &mut Rng, tables: &Tables) -> [Lookup; 3] {
    let mut any = |table: fn(Key) -> Lookup| {
        let keys = table((0, 1)).keys(tables);
        table(if keys.is_empty() || rng.one_in(4) { (rng.below(POOLS.into()), 7) } else { rng.pick(&keys) })
    };
    let lookups = [any(stake), any(offer)];
    let malformed = malformed(rng);
    [lookups[0], lookups[1], if rng.one_in(2) { stake(malformed) } else { offer(malformed) }]
}

fn stake((pool, account): Key) -> Lookup {
    Lookup::Stake { pool, account }
}

fn offer((pool, offer): Key) -> Lookup {
    Lookup::Offer { pool, offer }
}

/// All of them where they are few, else the first, the last, the one that is read first and some others.
fn picked(rng: &mut Rng, keys: &[Key], rows: usize) -> Vec<Key> {
    if keys.len() <= rows {
        return keys.to_vec();
    }
    let mut picked = vec![keys[0], keys[keys.len() - 1], keys[keys.len() / 2]];
    picked.extend((picked.len()..rows).map(|_| rng.pick(keys)));
    picked
}

/// A key, those just before and behind it, and the same number in another pool.
fn beside(rng: &mut Rng, (pool, number): Key) -> [Key; 4] {
    let other = (pool + 1 + rng.below(u64::from(POOLS) - 1)) % u64::from(POOLS);
    [(pool, number), (pool, number.saturating_sub(1).max(1)), (pool, number.saturating_add(1)), (other, number)]
}

/// A number of 0, or no pool, which may be one where it is cut to a byte or to half a word.
fn malformed(rng: &mut Rng) -> Key {
    let pool = rng.below(POOLS.into());
    let none = rng.pick(&[4, 5, 256 + pool, (1 << 32) + pool, u64::MAX]);
    rng.pick(&[(pool, 0), (none, 0), (none, 7)])
}
