//! Slips of the rule of a lookup, to see that the cases of `lookups` tell each from it.

use crate::halving::{find, Found, Key};

type Model = fn(&[Key], Key) -> Found;

/// What slips, and the fewest rows among which it is seen.
pub const SLIPS: [(&str, Model, usize); 9] = [
    ("a last look whether the row has the key", last_look, 1),
    ("the last row read is not counted", one_less, 1),
    ("the row behind the last is one of them", one_row_more, 0),
    ("the rows before the middle are not halved", one_side, 3),
    ("the row with the key is the last to be read", stop_at_the_key, 2),
    ("of two rows in the middle the first is read", first_of_two, 2),
    ("numbers are compared, and no pools", numbers_alone, 2),
    ("a gap is told one too far", gap_too_far, 0),
    ("a gap before a row is told as the row", gap_as_row, 1),
];

fn last_look(keys: &[Key], wanted: Key) -> Found {
    let mut found = find(keys, wanted);
    if found.place < keys.len() {
        found.read.push(found.place);
    }
    found
}

fn one_less(keys: &[Key], wanted: Key) -> Found {
    let mut found = find(keys, wanted);
    found.read.pop();
    found
}

fn one_row_more(keys: &[Key], wanted: Key) -> Found {
    let behind = (u64::MAX, u64::MAX);
    find(&[keys, &[behind]].concat(), wanted)
}

fn one_side(keys: &[Key], wanted: Key) -> Found {
    reading(keys, wanted, |low, high| (low + high) / 2, |_, high| high - 1)
}

fn stop_at_the_key(keys: &[Key], wanted: Key) -> Found {
    let mut found = find(keys, wanted);
    if let Some(turn) = found.read.iter().position(|row| keys[*row] == wanted) {
        found.read.truncate(turn + 1);
    }
    found
}

fn first_of_two(keys: &[Key], wanted: Key) -> Found {
    reading(keys, wanted, |low, high| (low + high - 1) / 2, |middle, _| middle)
}

/// The place as it should be, with rows read by another middle, and another end of the rows before it.
fn reading(keys: &[Key], wanted: Key, middle: fn(usize, usize) -> usize, end: fn(usize, usize) -> usize) -> Found {
    let (mut low, mut high, mut read) = (0, keys.len(), Vec::new());
    while low < high {
        let row = middle(low, high);
        read.push(row);
        (low, high) = if keys[row] < wanted { (row + 1, high) } else { (low, end(row, high)) };
    }
    Found { read, ..find(keys, wanted) }
}

fn numbers_alone(keys: &[Key], (pool, number): Key) -> Found {
    let numbers: Vec<Key> = keys.iter().map(|(_, number)| (0, *number)).collect();
    Found { read: find(&numbers, (0, number)).read, ..find(keys, (pool, number)) }
}

fn gap_too_far(keys: &[Key], wanted: Key) -> Found {
    let found = find(keys, wanted);
    Found { place: found.place + usize::from(!found.row), ..found }
}

fn gap_as_row(keys: &[Key], wanted: Key) -> Found {
    let found = find(keys, wanted);
    Found { row: found.place < keys.len(), ..found }
}
