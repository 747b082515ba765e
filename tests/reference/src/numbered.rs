//! Lists numbered from 1.

use std::ops::{Index, IndexMut};

/// One `T` for each account, group, contract or instrument of a roster; the first has the number 1.
#[derive(Clone, PartialEq, Eq, Debug)]
pub struct Numbered<T>(Vec<T>);

impl<T: Clone> Numbered<T> {
    /// As many of `each` as `size` says.
    pub fn of(size: u16, each: T) -> Numbered<T> {
        Numbered(vec![each; usize::from(size)])
    }
}

impl<T> Numbered<T> {
    pub fn iter(&self) -> impl Iterator<Item = &T> {
        self.0.iter()
    }
}

impl<T> Index<u16> for Numbered<T> {
    type Output = T;

    fn index(&self, number: u16) -> &T {
        &self.0[usize::from(number) - 1]
    }
}

impl<T> IndexMut<u16> for Numbered<T> {
    fn index_mut(&mut self, number: u16) -> &mut T {
        &mut self.0[usize::from(number) - 1]
    }
}
