//! One thing wrong with well-formed tables, by kind.

use crate::words::Words;
use oracle::limits::{GREATEST_RATE, LAST_TIME, LIMIT, MOST_OFFERS, MOST_STAKES};
use oracle::Rng;

/// What is wrong, and the change that makes it so. A change that finds no row to spoil makes one.
pub type Kind = (&'static str, fn(&mut Rng, &mut Words));

const STAKE: usize = 5;
const OFFER: usize = 4;
const OVER: u64 = LIMIT as u64 + 1;
/// The least word that is negative when signed, and the greatest of all.
const NEGATIVE: [u64; 3] = [1 << 63, u64::MAX, u64::MAX - LIMIT as u64];

pub const KINDS: &[Kind] = &[
    ("no stake rows", |_, words| words.stakes.clear()),
    ("no offer rows", |_, words| words.offers.clear()),
    ("no books", |_, words| words.books.clear()),
    ("a stake row cut", |rng, words| cut(rng, &mut words.stakes, STAKE)),
    ("an offer row cut", |rng, words| cut(rng, &mut words.offers, OFFER)),
    ("books cut", |rng, words| words.books.truncate(rng.below(12) as usize)),
    ("books too long", |rng, words| words.books.resize(13 + rng.below(12) as usize, 0)),
    ("too many stake rows", |rng, words| words.stakes.resize(STAKE * (MOST_STAKES + 1 + rng.below(3) as usize), 0)),
    ("too many offer rows", |rng, words| words.offers.resize(OFFER * (MOST_OFFERS + 1 + rng.below(3) as usize), 0)),
    ("stakes out of order", |rng, words| swap(rng, &mut words.stakes, STAKE)),
    ("offers out of order", |rng, words| swap(rng, &mut words.offers, OFFER)),
    ("a stake row twice", |rng, words| twice(rng, &mut words.stakes, STAKE)),
    ("an offer row twice", |rng, words| twice(rng, &mut words.offers, OFFER)),
    ("a gap in the stakes", |rng, words| gap(rng, &mut words.stakes, STAKE)),
    ("a gap in the offers", |rng, words| gap(rng, &mut words.offers, OFFER)),
    ("a word in an unused stake row", |rng, words| junk(rng, &mut words.stakes, STAKE)),
    ("a word in an unused offer row", |rng, words| junk(rng, &mut words.offers, OFFER)),
    ("a stake's pool unknown", |rng, words| *last(&mut words.stakes, STAKE, 0) = rng.pick(&[4, 5, 1 << 32, u64::MAX])),
    ("an offer's pool unknown", |rng, words| *last(&mut words.offers, OFFER, 0) = rng.pick(&[4, 5, 1 << 32, u64::MAX])),
    ("account 0", |rng, words| *any(rng, &mut words.stakes, STAKE, 1) = 0),
    ("offer 0", |rng, words| *any(rng, &mut words.offers, OFFER, 1) = 0),
    ("a stake past its limit, sums matching", stake_past_limit),
    ("stakes whose sum matches only by wrapping", wrapped),
    ("since past the last time", |rng, words| {
        *any(rng, &mut words.stakes, STAKE, 3) = rng.pick(&[LAST_TIME + 1, 1 << 63, u64::MAX])
    }),
    ("since of a stake of 0", since_of_none),
    ("a stake row without figures", without_figures),
    ("an accrual past its limit", |rng, words| *any(rng, &mut words.stakes, STAKE, 4) = rng.pick(&[OVER, 1 << 62])),
    ("an accrual below 0", |rng, words| *any(rng, &mut words.stakes, STAKE, 4) = rng.pick(&NEGATIVE)),
    ("nothing reserved", |rng, words| reserve(rng, words, 0, 0)),
    ("reserved past its limit, sums matching", |rng, words| reserve(rng, words, OVER, OVER)),
    ("reserved below 0, sums matching", |rng, words| {
        let reserved = rng.pick(&NEGATIVE);
        reserve(rng, words, reserved, reserved)
    }),
    ("paid past reserved, sums matching", |rng, words| reserve(rng, words, 5, 6)),
    ("paid below 0, sums matching", |rng, words| reserve(rng, words, 5, u64::MAX)),
    ("a balance wrong", |rng, words| change(rng, words, 0)),
    ("an unpaid sum wrong", |rng, words| change(rng, words, 4)),
    ("admin 0", |_, words| words.books[8] = 0),
    ("paused neither 0 nor 1", |rng, words| words.books[10] = rng.pick(&[2, 3, 1 << 32, 1 << 63, u64::MAX])),
    ("a rate past its limit", |rng, words| {
        words.books[11] = rng.pick(&[GREATEST_RATE as u64 + 1, 1 << 32, 1 << 63, u64::MAX])
    }),
];

/// Any word or length, changed at random: what comes of it may still be well formed.
pub fn spoil(rng: &mut Rng, words: &mut Words) {
    for _ in 0..1 + rng.below(2) {
        let table = match rng.below(3) {
            0 => &mut words.stakes,
            1 => &mut words.offers,
            _ => &mut words.books,
        };
        let used = table.iter().rposition(|word| *word != 0).map_or(1, |last| last + 1) as u64;
        // Mostly a word in use; the balances that go with it are left, so most changes show.
        let at = if rng.one_in(4) { rng.below(table.len() as u64) } else { rng.below(used) } as usize;
        let word = table[at];
        table[at] = match rng.below(6) {
            0 => word.wrapping_add(1),
            1 => word.wrapping_sub(1),
            2 => word ^ (1 << rng.below(64)),
            3 => rng.pick(&[0, 1, 3, 4, LAST_TIME, LAST_TIME + 1, LIMIT as u64, OVER, 1 << 63, u64::MAX]),
            4 => word.wrapping_neg(),
            _ => rng.word(),
        };
    }
}

fn used_rows(table: &[u64], width: usize) -> usize {
    table.chunks(width).take_while(|row| row.iter().any(|word| *word != 0)).count()
}

/// The number of a used row; where there is none the first becomes one.
fn used_row(rng: &mut Rng, table: &mut [u64], width: usize) -> usize {
    match used_rows(table, width) {
        0 => first(table, width),
        used => rng.below(used as u64) as usize,
    }
}

/// A good row of pool 0 and number 1 that the sums need not know of.
fn first(table: &mut [u64], width: usize) -> usize {
    let row: &[u64] = if width == STAKE { &[0, 1, 0, 0, 1] } else { &[0, 1, 1, 1] };
    table[..width].copy_from_slice(row);
    0
}

fn any<'a>(rng: &mut Rng, table: &'a mut [u64], width: usize, word: usize) -> &'a mut u64 {
    &mut table[width * used_row(rng, table, width) + word]
}

fn last(table: &mut [u64], width: usize, word: usize) -> &mut u64 {
    let at = match used_rows(table, width) {
        0 => first(table, width),
        used => used - 1,
    };
    &mut table[width * at + word]
}

fn cut(rng: &mut Rng, table: &mut Vec<u64>, width: usize) {
    let short = 1 + rng.below(width as u64 - 1) as usize;
    table.truncate(table.len() - short);
}

/// Two used rows; where there are fewer it makes a row of the pool that never is.
fn neighbours(rng: &mut Rng, table: &mut [u64], width: usize) -> Option<usize> {
    let used = used_rows(table, width);
    if used < 2 {
        table[0] = 9;
        return None;
    }
    Some(width * rng.below(used as u64 - 1) as usize)
}

fn swap(rng: &mut Rng, table: &mut [u64], width: usize) {
    if let Some(at) = neighbours(rng, table, width) {
        table[at..at + 2 * width].rotate_left(width);
    }
}

/// The number of a row becomes its neighbour's.
fn twice(rng: &mut Rng, table: &mut [u64], width: usize) {
    if let Some(at) = neighbours(rng, table, width) {
        table.copy_within(at..at + 2, at + width);
    }
}

fn gap(rng: &mut Rng, table: &mut [u64], width: usize) {
    if let Some(at) = neighbours(rng, table, width) {
        table[at..at + width].fill(0);
    }
}

fn junk(rng: &mut Rng, table: &mut [u64], width: usize) {
    let used = width * used_rows(table, width);
    if used == table.len() {
        // No row is unused: the last one is emptied but for one word.
        let row = used - width;
        table[row..].fill(0);
        table[row + 1 + rng.below(width as u64 - 1) as usize] = 1;
        return;
    }
    let at = used as u64 + rng.below((table.len() - used) as u64);
    table[at as usize] = rng.pick(&[1, u64::MAX, 1 << 63]);
}

/// A stake beyond its limit whose balance knows of it.
fn stake_past_limit(rng: &mut Rng, words: &mut Words) {
    let stake = rng.pick(&[OVER, OVER.wrapping_neg(), 1 << 62, 1 << 63, (1 << 63) - 1]);
    let row = STAKE * restake(rng, words, stake);
    words.stakes[row + 3] = 0;
}

/// Another stake in a used row, whose number it answers, and a balance that knows of it.
fn restake(rng: &mut Rng, words: &mut Words, stake: u64) -> usize {
    let at = used_row(rng, &mut words.stakes, STAKE);
    let row = &mut words.stakes[STAKE * at..][..STAKE];
    let balance = &mut words.books[row[0] as usize];
    *balance = balance.wrapping_sub(row[2]).wrapping_add(stake);
    row[2] = stake;
    at
}

/// Two rows of one pool that are 2^63 off each: their sum in words is as before.
fn wrapped(_: &mut Rng, words: &mut Words) {
    let rows = used_rows(&words.stakes, STAKE);
    let pair = (1..rows).find(|at| words.stakes[STAKE * at] == words.stakes[STAKE * (at - 1)]);
    match pair {
        Some(at) => {
            for row in [at - 1, at] {
                words.stakes[STAKE * row + 2] ^= 1 << 63;
            }
        }
        None => words.books[0] ^= 1 << 63,
    }
}

fn since_of_none(rng: &mut Rng, words: &mut Words) {
    let row = STAKE * restake(rng, words, 0);
    words.stakes[row + 3] = rng.pick(&[1, LAST_TIME]);
    words.stakes[row + 4] = 1;
}

fn without_figures(rng: &mut Rng, words: &mut Words) {
    let row = STAKE * restake(rng, words, 0);
    words.stakes[row + 3..row + 5].fill(0);
}

/// Other figures of an offer, and an unpaid sum that knows of them.
fn reserve(rng: &mut Rng, words: &mut Words, reserved: u64, paid: u64) {
    let at = used_row(rng, &mut words.offers, OFFER);
    let row = &mut words.offers[OFFER * at..][..OFFER];
    let unpaid = &mut words.books[4 + row[0] as usize];
    let before = row[2].wrapping_sub(row[3]);
    *unpaid = unpaid.wrapping_sub(before).wrapping_add(reserved.wrapping_sub(paid));
    (row[2], row[3]) = (reserved, paid);
}

fn change(rng: &mut Rng, words: &mut Words, from: usize) {
    let at = from + rng.below(4) as usize;
    let by = rng.pick(&[1, u64::MAX, 1 << 63, 1 << 32]);
    words.books[at] = words.books[at].wrapping_add(by);
}
