//! The rows of the Rust crate's `ComponentVec`.

use crate::rows::next_index;
use wasmi_collections::arena::ComponentVec;

#[inline(never)]
fn fill(components: &mut ComponentVec<usize, u64>, n: u64, first: u64) -> u64 {
    let mut sum = first;
    for i in 0..n {
        let old = components.set(i as usize, first.wrapping_add(i));
        sum = sum.wrapping_add(old.unwrap_or(1));
    }
    sum
}

pub fn component_set_new(n: u64, rounds: u64) -> u64 {
    (0..rounds).fold(0, |sum, _| fill(&mut ComponentVec::new(), n, sum))
}

#[inline(never)]
fn set_all(components: &mut ComponentVec<usize, u64>, n: u64, before: u64) -> u64 {
    let (mut state, mut sum) = (1, before);
    for i in 0..n {
        let old = components.set(next_index(&mut state, n), i);
        sum = sum.wrapping_add(old.unwrap_or(1));
    }
    sum
}

pub fn component_set(n: u64, rounds: u64) -> u64 {
    let mut components = ComponentVec::new();
    let sum = fill(&mut components, n, 1);
    (0..rounds).fold(sum, |sum, _| set_all(&mut components, n, sum))
}

#[inline(never)]
fn get_all(components: &ComponentVec<usize, u64>, n: u64, before: u64) -> u64 {
    let (mut state, mut sum) = (1, before);
    for _ in 0..n {
        if let Some(component) = components.get(next_index(&mut state, n)) {
            sum = sum.wrapping_add(*component);
        }
    }
    sum
}

pub fn component_get(n: u64, rounds: u64) -> u64 {
    let mut components = ComponentVec::new();
    let sum = fill(&mut components, n, 1);
    (0..rounds).fold(sum, |sum, _| get_all(&components, n, sum))
}
