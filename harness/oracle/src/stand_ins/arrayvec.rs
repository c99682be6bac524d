//! `arrayvec::ArrayVec`: a vector with a capacity that is never passed.

use std::ops::Deref;

/// A vector of at most `N` entries.
pub struct ArrayVec<T, const N: usize>(Vec<T>);

impl<T, const N: usize> ArrayVec<T, N> {
    /// An empty vector.
    pub fn new() -> Self {
        ArrayVec(Vec::new())
    }

    /// Panics past the capacity, as the original does.
    pub fn push(&mut self, entry: T) {
        assert!(self.0.len() < N, "the array of {N} entries is full");
        self.0.push(entry);
    }
}

impl<T, const N: usize> Deref for ArrayVec<T, N> {
    type Target = [T];

    fn deref(&self) -> &[T] {
        &self.0
    }
}

impl<T, const N: usize> IntoIterator for ArrayVec<T, N> {
    type Item = T;
    type IntoIter = std::vec::IntoIter<T>;

    fn into_iter(self) -> Self::IntoIter {
        self.0.into_iter()
    }
}
