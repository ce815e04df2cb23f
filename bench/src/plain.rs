//! The rows of the plain container, `Vec`. Its keys are its indices.

mod components;

pub use components::{component_get, component_set, component_set_new};

use crate::rows::next_index;

#[inline(never)]
fn fill(vec: &mut Vec<u64>, n: u64, first: u64) {
    for i in 0..n {
        vec.push(first.wrapping_add(i));
    }
}

fn filled(n: u64) -> Vec<u64> {
    let mut vec = Vec::new();
    fill(&mut vec, n, 1);
    vec
}

pub fn vec_push(n: u64, rounds: u64) -> u64 {
    let mut sum = 0u64;
    for _ in 0..rounds {
        let mut vec = Vec::new();
        fill(&mut vec, n, sum);
        let last = vec.last().copied().unwrap_or(0);
        sum = sum.wrapping_add(last).wrapping_add(vec.len() as u64);
    }
    sum
}

#[inline(never)]
fn get_all(vec: &[u64], n: u64, before: u64) -> u64 {
    let (mut state, mut sum) = (1, before);
    for _ in 0..n {
        if let Some(item) = vec.get(next_index(&mut state, n)) {
            sum = sum.wrapping_add(*item);
        }
    }
    sum
}

pub fn vec_get(n: u64, rounds: u64) -> u64 {
    let vec = filled(n);
    (0..rounds).fold(1, |sum, _| get_all(&vec, n, sum))
}

#[inline(never)]
fn walk(vec: &[u64], before: u64) -> u64 {
    let mut sum = before;
    for item in vec.iter() {
        sum = sum.wrapping_add(*item);
    }
    sum
}

pub fn vec_iter(n: u64, rounds: u64) -> u64 {
    let vec = filled(n);
    (0..rounds).fold(1, |sum, _| walk(&vec, sum))
}

#[inline(never)]
fn walk_back(vec: &[u64], before: u64) -> u64 {
    let mut sum = before;
    for item in vec.iter().rev() {
        sum = sum.wrapping_add(*item);
    }
    sum
}

pub fn vec_iter_rev(n: u64, rounds: u64) -> u64 {
    let vec = filled(n);
    (0..rounds).fold(1, |sum, _| walk_back(&vec, sum))
}

#[inline(never)]
fn add_one(vec: &mut [u64]) {
    for item in vec.iter_mut() {
        *item = item.wrapping_add(1);
    }
}

pub fn vec_iter_mut(n: u64, rounds: u64) -> u64 {
    let mut vec = filled(n);
    for _ in 0..rounds {
        add_one(&mut vec);
    }
    walk(&vec, 1)
}

#[inline(never)]
fn swap_all(vec: &mut [u64], n: u64) {
    let mut state = 1;
    for i in 0..n {
        vec.swap(i as usize, next_index(&mut state, n));
    }
}

// The last item and the length.
fn ends(vec: &[u64]) -> u64 {
    let last = vec.get(vec.len().wrapping_sub(1)).copied().unwrap_or(0);
    last.wrapping_add(vec.len() as u64)
}

pub fn vec_swap(n: u64, rounds: u64) -> u64 {
    let mut vec = filled(n);
    for _ in 0..rounds {
        swap_all(&mut vec, n);
    }
    ends(&vec)
}

#[inline(never)]
#[expect(clippy::ptr_arg, reason = "a `Vec` is cloned")]
fn clone_once(vec: &Vec<u64>, before: u64) -> u64 {
    before.wrapping_add(ends(&vec.clone()))
}

pub fn vec_clone(n: u64, rounds: u64) -> u64 {
    let vec = filled(n);
    (0..rounds).fold(1, |sum, _| clone_once(&vec, sum))
}

#[inline(never)]
fn is_equal(left: &[u64], right: &[u64], before: u64) -> u64 {
    before.wrapping_add(if left == right { 2 } else { 1 })
}

pub fn vec_eq(n: u64, rounds: u64) -> u64 {
    let (left, right) = (filled(n), filled(n));
    (0..rounds).fold(1, |sum, _| is_equal(&left, &right, sum))
}

#[inline(never)]
fn fill_keyed(vec: &mut Vec<u64>, n: u64, first: u64) -> u64 {
    let mut sum = first;
    for i in 0..n {
        let key = vec.len() as u64;
        vec.push(first.wrapping_add(i));
        sum = sum.wrapping_add(key);
    }
    sum
}

pub fn arena_alloc(n: u64, rounds: u64) -> u64 {
    (0..rounds).fold(0, |sum, _| fill_keyed(&mut Vec::new(), n, sum))
}

#[inline(never)]
fn fill_default(vec: &mut Vec<u64>, n: u64, before: u64) -> u64 {
    vec.resize_with(vec.len() + n as usize, u64::default);
    let last = vec.last().copied().unwrap_or(1);
    before.wrapping_add(vec.len() as u64).wrapping_add(last)
}

pub fn arena_alloc_many(n: u64, rounds: u64) -> u64 {
    (0..rounds).fold(1, |sum, _| fill_default(&mut Vec::new(), n, sum))
}

#[inline(never)]
fn walk_keyed(vec: &[u64], before: u64) -> u64 {
    let mut sum = before;
    for (key, item) in vec.iter().enumerate() {
        sum = sum.wrapping_add(*item ^ key as u64);
    }
    sum
}

pub fn arena_iter(n: u64, rounds: u64) -> u64 {
    let mut vec = Vec::new();
    let sum = fill_keyed(&mut vec, n, 1);
    (0..rounds).fold(sum, |sum, _| walk_keyed(&vec, sum))
}

pub fn arena_get(n: u64, rounds: u64) -> u64 {
    let mut vec = Vec::new();
    let sum = fill_keyed(&mut vec, n, 1);
    (0..rounds).fold(sum, |sum, _| get_all(&vec, n, sum))
}

#[inline(never)]
fn add_keys(vec: &mut [u64]) {
    for (key, item) in vec.iter_mut().enumerate() {
        *item = item.wrapping_add(key as u64).wrapping_add(1);
    }
}

pub fn arena_iter_mut(n: u64, rounds: u64) -> u64 {
    let mut vec = Vec::new();
    let sum = fill_keyed(&mut vec, n, 1);
    for _ in 0..rounds {
        add_keys(&mut vec);
    }
    walk_keyed(&vec, sum)
}

#[inline(never)]
fn drain(vec: &mut Vec<u64>, n: u64, before: u64) -> u64 {
    let mut sum = before;
    for _ in 0..n {
        sum = sum.wrapping_add(vec.pop().unwrap_or(1));
    }
    sum
}

pub fn vec_push_pop(n: u64, rounds: u64) -> u64 {
    let mut vec = filled(n);
    let mut sum = drain(&mut vec, n, 1);
    for _ in 0..rounds {
        fill(&mut vec, n, sum);
        sum = drain(&mut vec, n, sum);
    }
    sum
}
