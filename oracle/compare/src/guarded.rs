//! Lent memory with a guard at each end, so that a write beyond it shows.

use std::ops::{Deref, DerefMut};

const GUARD: usize = 16;

#[derive(Clone)]
pub struct Guarded<T> {
    cells: Vec<T>,
    guard: T,
}

impl<T: Copy + PartialEq> Guarded<T> {
    pub fn new(contents: &[T], guard: T) -> Self {
        let ends = [guard; GUARD];
        Guarded { cells: [&ends, contents, &ends].concat(), guard }
    }

    pub fn intact(&self) -> bool {
        let (start, rest) = self.cells.split_at(GUARD);
        let end = &rest[rest.len() - GUARD..];
        start.iter().chain(end).all(|cell| *cell == self.guard)
    }
}

#[cfg(test)]
impl<T: Copy> Guarded<T> {
    /// Cells put from a place on, as by a slip: into the guard too, and no further.
    pub fn put(&mut self, at: usize, cells: &[T]) {
        let room = self.cells.iter_mut().skip(GUARD.saturating_add(at));
        room.zip(cells).for_each(|(place, cell)| *place = *cell);
    }
}

impl<T> Deref for Guarded<T> {
    type Target = [T];

    fn deref(&self) -> &[T] {
        &self.cells[GUARD..self.cells.len() - GUARD]
    }
}

impl<T> DerefMut for Guarded<T> {
    fn deref_mut(&mut self) -> &mut [T] {
        let end = self.cells.len() - GUARD;
        &mut self.cells[GUARD..end]
    }
}
