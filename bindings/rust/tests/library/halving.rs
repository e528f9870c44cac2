//! The rule of a lookup, plainly. It knows nothing of the library.

/// A row's pool and number. Rows are sorted by the pool and then by the number.
pub type Key = (u64, u64);

/// What a lookup among sorted rows finds, and the rows that it reads, in their order.
#[derive(Clone, Debug)]
pub struct Found {
    /// Whether a row has the key.
    pub row: bool,
    /// How many rows have smaller keys.
    pub place: usize,
    pub read: Vec<usize>,
}

impl Found {
    /// What the one who asks is told: the rows read only by their number.
    pub fn told(&self) -> (bool, usize, usize) {
        (self.row, self.place, self.read.len())
    }
}

pub fn find(keys: &[Key], wanted: Key) -> Found {
    let mut place = 0;
    while place < keys.len() && is_below(keys[place], wanted) {
        place += 1;
    }
    let mut read = Vec::new();
    halve(keys, wanted, 0, keys.len(), &mut read);
    Found { row: keys.get(place) == Some(&wanted), place, read }
}

fn is_below((pool, number): Key, (wanted_pool, wanted_number): Key) -> bool {
    pool < wanted_pool || pool == wanted_pool && number < wanted_number
}

/// Of the rows from `low` on and before `high` the middle one is read, and then of those behind it where its key is below, else of those
/// before it.
fn halve(keys: &[Key], wanted: Key, low: usize, high: usize, read: &mut Vec<usize>) {
    if low < high {
        let middle = (low + high) / 2;
        read.push(middle);
        if is_below(keys[middle], wanted) {
            halve(keys, wanted, middle + 1, high, read);
        } else {
            halve(keys, wanted, low, middle, read);
        }
    }
}

/// How many binary digits a number has: 0 has none.
pub fn digits(number: usize) -> usize {
    (usize::BITS - number.leading_zeros()) as usize
}
