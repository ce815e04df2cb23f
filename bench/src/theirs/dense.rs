//! The rows of the Rust crate's `Arena`.

use crate::rows::next_index;
use wasmi_collections::arena::{Arena, ArenaKey};

#[inline(never)]
fn fill<Key: ArenaKey>(arena: &mut Arena<Key, u64>, n: u64, first: u64) -> u64 {
    let mut sum = first;
    for i in 0..n {
        let Ok(key) = arena.alloc(first.wrapping_add(i)) else {
            return 0;
        };
        sum = sum.wrapping_add(key.into_usize() as u64);
    }
    sum
}

pub fn dense_alloc(n: u64, rounds: u64) -> u64 {
    (0..rounds).fold(0, |sum, _| fill(&mut Arena::<usize, u64>::new(), n, sum))
}

#[inline(never)]
fn fill_default<Key: ArenaKey>(arena: &mut Arena<Key, u64>, n: u64, before: u64) -> u64 {
    let Ok(keys) = arena.alloc_many(n as usize) else {
        return 0;
    };
    let end = keys.end.into_usize();
    let last = match Key::from_usize(end.wrapping_sub(1)) {
        Some(key) => arena.get(key).copied().unwrap_or(1),
        None => 1,
    };
    before.wrapping_add(end as u64).wrapping_add(last)
}

pub fn dense_alloc_many(n: u64, rounds: u64) -> u64 {
    (0..rounds).fold(1, |sum, _| {
        fill_default(&mut Arena::<usize, u64>::new(), n, sum)
    })
}

#[inline(never)]
fn get_all(arena: &Arena<usize, u64>, n: u64, before: u64) -> u64 {
    let (mut state, mut sum) = (1, before);
    for _ in 0..n {
        if let Ok(item) = arena.get(next_index(&mut state, n)) {
            sum = sum.wrapping_add(*item);
        }
    }
    sum
}

pub fn dense_get(n: u64, rounds: u64) -> u64 {
    let mut arena = Arena::new();
    let sum = fill(&mut arena, n, 1);
    (0..rounds).fold(sum, |sum, _| get_all(&arena, n, sum))
}

#[inline(never)]
fn walk<Key: ArenaKey>(arena: &Arena<Key, u64>, before: u64) -> u64 {
    let mut sum = before;
    for (key, item) in arena.iter() {
        let number = key.into_usize() as u64;
        sum = sum.wrapping_add(*item ^ number);
    }
    sum
}

pub fn dense_iter<Key: ArenaKey>(n: u64, rounds: u64) -> u64 {
    let mut arena = Arena::<Key, u64>::new();
    let sum = fill(&mut arena, n, 1);
    (0..rounds).fold(sum, |sum, _| walk(&arena, sum))
}

#[inline(never)]
fn add_keys<Key: ArenaKey>(arena: &mut Arena<Key, u64>) {
    for (key, item) in arena.iter_mut() {
        let number = key.into_usize() as u64;
        *item = item.wrapping_add(number).wrapping_add(1);
    }
}

pub fn dense_iter_mut(n: u64, rounds: u64) -> u64 {
    let mut arena = Arena::<usize, u64>::new();
    let sum = fill(&mut arena, n, 1);
    for _ in 0..rounds {
        add_keys(&mut arena);
    }
    walk(&arena, sum)
}
