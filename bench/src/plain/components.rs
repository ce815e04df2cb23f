//! The rows of a `Vec` of options, which has a place for each number.

use crate::rows::next_index;

#[inline(never)]
fn fill(vec: &mut Vec<Option<u64>>, n: u64, first: u64) -> u64 {
    let mut sum = first;
    for i in 0..n {
        vec.push(Some(first.wrapping_add(i)));
        sum = sum.wrapping_add(1);
    }
    sum
}

pub fn component_set_new(n: u64, rounds: u64) -> u64 {
    (0..rounds).fold(0, |sum, _| fill(&mut Vec::new(), n, sum))
}

#[inline(never)]
fn set_all(vec: &mut [Option<u64>], n: u64, before: u64) -> u64 {
    let (mut state, mut sum) = (1, before);
    for i in 0..n {
        let old = vec[next_index(&mut state, n)].replace(i);
        sum = sum.wrapping_add(old.unwrap_or(1));
    }
    sum
}

pub fn component_set(n: u64, rounds: u64) -> u64 {
    let mut vec = Vec::new();
    let sum = fill(&mut vec, n, 1);
    (0..rounds).fold(sum, |sum, _| set_all(&mut vec, n, sum))
}

#[inline(never)]
fn get_all(vec: &[Option<u64>], n: u64, before: u64) -> u64 {
    let (mut state, mut sum) = (1, before);
    for _ in 0..n {
        if let Some(Some(component)) = vec.get(next_index(&mut state, n)) {
            sum = sum.wrapping_add(*component);
        }
    }
    sum
}

pub fn component_get(n: u64, rounds: u64) -> u64 {
    let mut vec = Vec::new();
    let sum = fill(&mut vec, n, 1);
    (0..rounds).fold(sum, |sum, _| get_all(&vec, n, sum))
}
