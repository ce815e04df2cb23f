//! The rows of the Rust crate's `HeadVec`.

use wasmi_collections::HeadVec;

#[inline(never)]
fn fill(list: &mut HeadVec<u64>, n: u64, first: u64) {
    for i in 0..n {
        list.push(first.wrapping_add(i));
    }
}

// The last item and the length.
fn ends(list: &HeadVec<u64>) -> u64 {
    let last = list.last().copied().unwrap_or(0);
    last.wrapping_add(list.len() as u64)
}

pub fn head_push(n: u64, rounds: u64) -> u64 {
    let mut sum = 0u64;
    for _ in 0..rounds {
        let mut list = HeadVec::default();
        fill(&mut list, n, sum);
        sum = sum.wrapping_add(ends(&list));
    }
    sum
}

#[inline(never)]
fn drain(list: &mut HeadVec<u64>, n: u64, before: u64) -> u64 {
    let mut sum = before;
    for _ in 0..n {
        sum = sum.wrapping_add(list.pop().unwrap_or(1));
    }
    sum
}

pub fn head_push_pop(n: u64, rounds: u64) -> u64 {
    let mut list = HeadVec::default();
    fill(&mut list, n, 1);
    let mut sum = drain(&mut list, n, 1);
    for _ in 0..rounds {
        fill(&mut list, n, sum);
        sum = drain(&mut list, n, sum);
    }
    sum
}
