//! The rows of sets.

use super::{key_of, OrderedSet, PlainTableSet, PlainTreeSet};
use crate::rows::next_index;

/// A set of numbers.
pub trait SetRows: Default {
    fn put(&mut self, element: u64) -> bool;
    fn has(&self, element: u64) -> bool;
    fn walk(&self, before: u64) -> u64;
    fn walk_union(&self, other: &Self, before: u64) -> u64;
}

macro_rules! set_rows {
    ($($set:ty),*) => {$(
        impl SetRows for $set {
            #[inline]
            fn put(&mut self, element: u64) -> bool {
                self.insert(element)
            }

            #[inline]
            fn has(&self, element: u64) -> bool {
                self.contains(&element)
            }

            #[inline(never)]
            fn walk(&self, before: u64) -> u64 {
                let mut sum = before;
                for element in self.iter() {
                    sum = sum.wrapping_add(*element);
                }
                sum
            }

            #[inline(never)]
            fn walk_union(&self, other: &Self, before: u64) -> u64 {
                let mut sum = before;
                for element in self.union(other) {
                    sum = sum.wrapping_add(*element);
                }
                sum
            }
        }
    )*};
}

set_rows!(OrderedSet, PlainTreeSet, PlainTableSet);

#[inline(never)]
fn fill<S: SetRows>(set: &mut S, from: u64, n: u64, before: u64) -> u64 {
    let mut sum = before;
    for i in 0..n {
        if set.put(key_of(from.wrapping_add(i))) {
            sum = sum.wrapping_add(1);
        }
    }
    sum
}

pub fn set_insert<S: SetRows>(n: u64, rounds: u64) -> u64 {
    (0..rounds).fold(1, |sum, _| fill(&mut S::default(), 0, n, sum))
}

#[inline(never)]
fn ask_all<S: SetRows>(set: &S, n: u64, before: u64) -> u64 {
    let (mut state, mut sum) = (1, before);
    for _ in 0..n {
        let number = next_index(&mut state, n.wrapping_mul(2));
        if set.has(key_of(number as u64)) {
            sum = sum.wrapping_add(1);
        }
    }
    sum
}

pub fn set_contains<S: SetRows>(n: u64, rounds: u64) -> u64 {
    let mut set = S::default();
    let sum = fill(&mut set, 0, n, 1);
    (0..rounds).fold(sum, |sum, _| ask_all(&set, n, sum))
}

pub fn set_iter<S: SetRows>(n: u64, rounds: u64) -> u64 {
    let mut set = S::default();
    let sum = fill(&mut set, 0, n, 1);
    (0..rounds).fold(sum, |sum, _| set.walk(sum))
}

pub fn set_union<S: SetRows>(n: u64, rounds: u64) -> u64 {
    let (mut left, mut right) = (S::default(), S::default());
    let sum = fill(&mut left, 0, n, 1);
    let sum = fill(&mut right, n / 2, n, sum);
    (0..rounds).fold(sum, |sum, _| left.walk_union(&right, sum))
}
