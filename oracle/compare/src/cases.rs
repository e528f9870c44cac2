//! Cases, counted, so that a run shows that it met every one.

use oracle::grouped;
use std::fmt;
use std::marker::PhantomData;

/// A case's name, and what is of it.
pub type Case<T> = (&'static str, fn(&T) -> bool);

pub trait InCases: Sized + 'static {
    const CASES: &'static [Case<Self>];
}

pub struct Cases<T> {
    all: u64,
    counts: Vec<u64>,
    of: PhantomData<T>,
}

impl<T: InCases> Default for Cases<T> {
    fn default() -> Self {
        Cases { all: 0, counts: vec![0; T::CASES.len()], of: PhantomData }
    }
}

impl<T: InCases> Cases<T> {
    pub fn count(&mut self, each: &T) {
        self.all += 1;
        for (count, (_, holds)) in self.counts.iter_mut().zip(T::CASES) {
            *count += u64::from(holds(each));
        }
    }

    pub fn add(&mut self, other: &Self) {
        self.all += other.all;
        self.counts.iter_mut().zip(&other.counts).for_each(|(sum, more)| *sum += more);
    }

    /// How many there were, of whatever case.
    pub fn all(&self) -> u64 {
        self.all
    }

    /// The first case that none was of.
    pub fn missed(&self) -> Option<&'static str> {
        self.counts.iter().position(|&times| times == 0).map(|at| T::CASES[at].0)
    }
}

/// The rows of a table.
impl<T: InCases> fmt::Display for Cases<T> {
    fn fmt(&self, f: &mut fmt::Formatter) -> fmt::Result {
        let mut rows = T::CASES.iter().zip(&self.counts);
        rows.try_for_each(|((name, _), count)| writeln!(f, "| {name} | {} |", grouped(*count)))
    }
}
