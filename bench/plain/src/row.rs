//! A row: the first n entries of an array. Gaps are opened and closed by moving entries. What stands behind n means nothing.

use std::ops::{Deref, DerefMut};

#[derive(Clone, Copy, Debug)]
pub struct Row<T, const N: usize> {
    row: [T; N],
    /// At most N.
    n: usize,
}

impl<T: Copy, const N: usize> Row<T, N> {
    pub const fn empty(blank: T) -> Row<T, N> {
        Row { row: [blank; N], n: 0 }
    }

    /// Takes the first n entries of a lent array. None if there are not so many.
    pub fn copy(&mut self, lent: &[T; N], n: usize) -> Option<()> {
        let lent = lent.get(..n)?;
        self.row[..n].copy_from_slice(lent);
        self.n = n;
        Some(())
    }

    /// Asks for room, as `insert` does. The table rules see to it.
    pub fn push(&mut self, entry: T) {
        self.row[self.n] = entry;
        self.n += 1;
    }

    /// For readers, which cannot know that there is room.
    pub fn try_push(&mut self, entry: T) -> Option<()> {
        *self.row.get_mut(self.n)? = entry;
        self.n += 1;
        Some(())
    }

    pub fn insert(&mut self, at: usize, entry: T) {
        self.row.copy_within(at..self.n, at + 1);
        self.row[at] = entry;
        self.n += 1;
    }

    pub fn remove(&mut self, at: usize) -> T {
        let entry = self.row[at];
        self.row.copy_within(at + 1..self.n, at);
        self.n -= 1;
        entry
    }

    /// Keeps the entries that pass, in their order.
    pub fn retain(&mut self, mut passes: impl FnMut(&T) -> bool) {
        let mut kept = 0;
        for i in 0..self.len() {
            if passes(&self.row[i]) {
                self.row[kept] = self.row[i];
                kept += 1;
            }
        }
        self.n = kept;
    }

    pub fn clear(&mut self) {
        self.n = 0;
    }
}

impl<T, const N: usize> Deref for Row<T, N> {
    type Target = [T];

    fn deref(&self) -> &[T] {
        &self.row[..self.n]
    }
}

impl<T, const N: usize> DerefMut for Row<T, N> {
    fn deref_mut(&mut self) -> &mut [T] {
        &mut self.row[..self.n]
    }
}
