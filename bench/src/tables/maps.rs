//! The rows of maps.

use super::{key_of, OrderedMap, PlainTable, PlainTree};
use crate::rows::next_index;

/// A map from numbers to numbers.
pub trait MapRows: Default {
    fn put(&mut self, key: u64, value: u64) -> Option<u64>;
    fn read(&self, key: u64) -> Option<u64>;
    fn count(&mut self, key: u64) -> u64;
    fn walk(&self, before: u64) -> u64;
}

macro_rules! map_rows {
    ($($map:ty),*) => {$(
        impl MapRows for $map {
            #[inline]
            fn put(&mut self, key: u64, value: u64) -> Option<u64> {
                self.insert(key, value)
            }

            #[inline]
            fn read(&self, key: u64) -> Option<u64> {
                self.get(&key).copied()
            }

            #[inline]
            fn count(&mut self, key: u64) -> u64 {
                let value = self.entry(key).or_insert(0);
                let old = *value;
                *value = old.wrapping_add(1);
                old
            }

            #[inline(never)]
            fn walk(&self, before: u64) -> u64 {
                let mut sum = before;
                for (key, value) in self.iter() {
                    sum = sum.wrapping_add(*key ^ *value);
                }
                sum
            }
        }
    )*};
}

map_rows!(OrderedMap, PlainTree, PlainTable);

#[inline(never)]
fn fill<M: MapRows>(map: &mut M, n: u64, first: u64) -> u64 {
    let mut sum = first;
    for i in 0..n {
        if map.put(key_of(i), first.wrapping_add(i)).is_none() {
            sum = sum.wrapping_add(1);
        }
    }
    sum
}

pub fn map_insert<M: MapRows>(n: u64, rounds: u64) -> u64 {
    (0..rounds).fold(1, |sum, _| fill(&mut M::default(), n, sum))
}

#[inline(never)]
fn append_all<M: MapRows>(map: &mut M, n: u64, first: u64) -> u64 {
    let mut sum = first;
    for key in 0..n {
        if map.put(key, first.wrapping_add(key)).is_none() {
            sum = sum.wrapping_add(1);
        }
    }
    sum
}

pub fn map_append<M: MapRows>(n: u64, rounds: u64) -> u64 {
    (0..rounds).fold(1, |sum, _| append_all(&mut M::default(), n, sum))
}

#[inline(never)]
fn get_all<M: MapRows>(map: &M, n: u64, before: u64) -> u64 {
    let (mut state, mut sum) = (1, before);
    for _ in 0..n {
        if let Some(value) = map.read(key_of(next_index(&mut state, n) as u64)) {
            sum = sum.wrapping_add(value);
        }
    }
    sum
}

pub fn map_get<M: MapRows>(n: u64, rounds: u64) -> u64 {
    let mut map = M::default();
    let sum = fill(&mut map, n, 1);
    (0..rounds).fold(sum, |sum, _| get_all(&map, n, sum))
}

pub fn map_iter<M: MapRows>(n: u64, rounds: u64) -> u64 {
    let mut map = M::default();
    let sum = fill(&mut map, n, 1);
    (0..rounds).fold(sum, |sum, _| map.walk(sum))
}

#[inline(never)]
fn count_all<M: MapRows>(map: &mut M, n: u64, before: u64) -> u64 {
    let (mut state, mut sum) = (1, before);
    for _ in 0..n {
        let old = map.count(key_of(next_index(&mut state, n) as u64));
        sum = sum.wrapping_add(old);
    }
    sum
}

pub fn map_entry<M: MapRows>(n: u64, rounds: u64) -> u64 {
    (0..rounds).fold(1, |sum, _| {
        count_all(&mut M::default(), n, sum).wrapping_add(1)
    })
}
