//! The rows of the Rust crate, in the form that `crates/wasmi_bench` has: what a round does stands in a function
//! that isn't inlined.

mod component_vec;
mod dense;
mod head_vec;

pub use component_vec::{component_get, component_set, component_set_new};
pub use dense::{dense_alloc, dense_alloc_many, dense_get, dense_iter, dense_iter_mut};
pub use head_vec::{head_push, head_push_pop};

use crate::rows::next_index;
use wasmi_collections::arena::{ArenaKey, StableArena, StableVec};

#[inline(never)]
fn fill(vec: &mut StableVec<u64>, n: u64, first: u64) {
    for i in 0..n {
        vec.push(first.wrapping_add(i));
    }
}

fn filled(n: u64) -> StableVec<u64> {
    let mut vec = StableVec::new();
    fill(&mut vec, n, 1);
    vec
}

pub fn vec_push(n: u64, rounds: u64) -> u64 {
    let mut sum = 0u64;
    for _ in 0..rounds {
        let mut vec = StableVec::new();
        fill(&mut vec, n, sum);
        let last = vec.get(vec.len().wrapping_sub(1)).copied().unwrap_or(0);
        sum = sum.wrapping_add(last).wrapping_add(vec.len() as u64);
    }
    sum
}

#[inline(never)]
fn get_all(vec: &StableVec<u64>, n: u64, before: u64) -> u64 {
    let (mut state, mut sum) = (1, before);
    for _ in 0..n {
        if let Some(item) = vec.get(next_index(&mut state, n)) {
            sum = sum.wrapping_add(*item);
        }
    }
    sum
}

pub fn vec_get(n: u64, rounds: u64) -> u64 {
    let vec = filled(n);
    (0..rounds).fold(1, |sum, _| get_all(&vec, n, sum))
}

#[inline(never)]
fn walk(vec: &StableVec<u64>, before: u64) -> u64 {
    let mut sum = before;
    for item in vec.iter() {
        sum = sum.wrapping_add(*item);
    }
    sum
}

pub fn vec_iter(n: u64, rounds: u64) -> u64 {
    let vec = filled(n);
    (0..rounds).fold(1, |sum, _| walk(&vec, sum))
}

#[inline(never)]
fn walk_back(vec: &StableVec<u64>, before: u64) -> u64 {
    let mut sum = before;
    for item in vec.iter().rev() {
        sum = sum.wrapping_add(*item);
    }
    sum
}

pub fn vec_iter_rev(n: u64, rounds: u64) -> u64 {
    let vec = filled(n);
    (0..rounds).fold(1, |sum, _| walk_back(&vec, sum))
}

#[inline(never)]
fn add_one(vec: &mut StableVec<u64>) {
    for item in vec.iter_mut() {
        *item = item.wrapping_add(1);
    }
}

pub fn vec_iter_mut(n: u64, rounds: u64) -> u64 {
    let mut vec = filled(n);
    for _ in 0..rounds {
        add_one(&mut vec);
    }
    walk(&vec, 1)
}

#[inline(never)]
fn swap_all(vec: &mut StableVec<u64>, n: u64) {
    let mut state = 1;
    for i in 0..n {
        if let Ok([a, b]) = vec.get_disjoint_mut([i as usize, next_index(&mut state, n)]) {
            std::mem::swap(a, b);
        }
    }
}

// The last item and the length.
fn ends(vec: &StableVec<u64>) -> u64 {
    let last = vec.get(vec.len().wrapping_sub(1)).copied().unwrap_or(0);
    last.wrapping_add(vec.len() as u64)
}

pub fn vec_swap(n: u64, rounds: u64) -> u64 {
    let mut vec = filled(n);
    for _ in 0..rounds {
        swap_all(&mut vec, n);
    }
    ends(&vec)
}

#[inline(never)]
fn clone_once(vec: &StableVec<u64>, before: u64) -> u64 {
    before.wrapping_add(ends(&vec.clone()))
}

pub fn vec_clone(n: u64, rounds: u64) -> u64 {
    let vec = filled(n);
    (0..rounds).fold(1, |sum, _| clone_once(&vec, sum))
}

#[inline(never)]
fn is_equal(left: &StableVec<u64>, right: &StableVec<u64>, before: u64) -> u64 {
    before.wrapping_add(if left == right { 2 } else { 1 })
}

pub fn vec_eq(n: u64, rounds: u64) -> u64 {
    let (left, right) = (filled(n), filled(n));
    (0..rounds).fold(1, |sum, _| is_equal(&left, &right, sum))
}

#[inline(never)]
fn fill_arena<Key: ArenaKey>(arena: &mut StableArena<Key, u64>, n: u64, first: u64) -> u64 {
    let mut sum = first;
    for i in 0..n {
        let Ok(key) = arena.alloc(first.wrapping_add(i)) else {
            return 0;
        };
        sum = sum.wrapping_add(key.into_usize() as u64);
    }
    sum
}

pub fn arena_alloc(n: u64, rounds: u64) -> u64 {
    (0..rounds).fold(0, |sum, _| {
        fill_arena(&mut StableArena::<usize, u64>::new(), n, sum)
    })
}

#[inline(never)]
fn fill_default<Key: ArenaKey>(arena: &mut StableArena<Key, u64>, n: u64, before: u64) -> u64 {
    let Ok(keys) = arena.alloc_many(n as usize) else {
        return 0;
    };
    let end = keys.end.into_usize();
    let last = match Key::from_usize(end.wrapping_sub(1)) {
        Some(key) => arena.get(key).copied().unwrap_or(1),
        None => 1,
    };
    before.wrapping_add(end as u64).wrapping_add(last)
}

pub fn arena_alloc_many(n: u64, rounds: u64) -> u64 {
    (0..rounds).fold(1, |sum, _| {
        fill_default(&mut StableArena::<usize, u64>::new(), n, sum)
    })
}

#[inline(never)]
fn walk_arena<Key: ArenaKey>(arena: &StableArena<Key, u64>, before: u64) -> u64 {
    let mut sum = before;
    for (key, item) in arena.iter() {
        let number = key.into_usize() as u64;
        sum = sum.wrapping_add(*item ^ number);
    }
    sum
}

pub fn arena_iter<Key: ArenaKey>(n: u64, rounds: u64) -> u64 {
    let mut arena = StableArena::<Key, u64>::new();
    let sum = fill_arena(&mut arena, n, 1);
    (0..rounds).fold(sum, |sum, _| walk_arena(&arena, sum))
}
