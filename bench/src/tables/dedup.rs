//! The rows of arenas that keep equal values once.

use super::key_of;
use crate::rows::next_index;
use std::collections::HashMap;
use wasmi_collections::arena::DedupArena;

/// An arena that keeps equal values once.
pub trait DedupRows: Default {
    fn put(&mut self, value: u64) -> u64;
}

/// The Rust crate's, which as it is built here finds a value by its ordered map.
pub type RustDedup = DedupArena<usize, u64>;

impl DedupRows for RustDedup {
    #[inline]
    fn put(&mut self, value: u64) -> u64 {
        self.alloc(value).map_or(0, |key| key as u64)
    }
}

/// A `Vec`, and a `HashMap` from the values to their indices.
#[derive(Default)]
pub struct PlainDedup {
    items: Vec<u64>,
    index: HashMap<u64, usize>,
}

impl PlainDedup {
    // The Rust crate has no such call, so this stands in its place too.
    #[inline]
    fn replace(&mut self, at: usize, value: u64) -> u64 {
        let old = std::mem::replace(&mut self.items[at], value);
        if self.index.get(&old) == Some(&at) {
            self.index.remove(&old);
        } else {
            self.index.retain(|_, other| *other != at);
        }
        self.index.insert(value, at);
        old
    }
}

impl DedupRows for PlainDedup {
    #[inline]
    fn put(&mut self, value: u64) -> u64 {
        let items = &mut self.items;
        let index = self.index.entry(value).or_insert_with(|| {
            items.push(value);
            items.len() - 1
        });
        *index as u64
    }
}

#[inline(never)]
fn fill<D: DedupRows>(arena: &mut D, n: u64, before: u64) -> u64 {
    let mut sum = before;
    for i in 0..n {
        sum = sum.wrapping_add(arena.put(key_of(i)));
    }
    sum
}

pub fn dedup_new<D: DedupRows>(n: u64, rounds: u64) -> u64 {
    (0..rounds).fold(1, |sum, _| fill(&mut D::default(), n, sum))
}

#[inline(never)]
fn repeat<D: DedupRows>(arena: &mut D, n: u64, before: u64) -> u64 {
    let (mut state, mut sum) = (1, before);
    for _ in 0..n {
        let value = key_of(next_index(&mut state, n) as u64);
        sum = sum.wrapping_add(arena.put(value));
    }
    sum
}

pub fn dedup_again<D: DedupRows>(n: u64, rounds: u64) -> u64 {
    let mut arena = D::default();
    let sum = fill(&mut arena, n, 1);
    (0..rounds).fold(sum, |sum, _| repeat(&mut arena, n, sum))
}

#[inline(never)]
fn move_all(arena: &mut PlainDedup, n: u64, first: u64, written: bool, before: u64) -> u64 {
    (0..n).fold(before, |sum, i| {
        let at = i as usize;
        if written {
            arena.items[at] = !arena.items[at];
        }
        sum.wrapping_add(arena.replace(at, key_of(first.wrapping_add(i))))
    })
}

fn moved(n: u64, rounds: u64, written: bool) -> u64 {
    let mut arena = PlainDedup::default();
    let sum = fill(&mut arena, n, 1);
    (1..=rounds).fold(sum, |sum, round| {
        move_all(&mut arena, n, n.wrapping_mul(round), written, sum)
    })
}

pub fn dedup_replace(n: u64, rounds: u64) -> u64 {
    moved(n, rounds, false)
}

pub fn dedup_replace_written(n: u64, rounds: u64) -> u64 {
    moved(n, rounds, true)
}
