//! The rows of interners.

use super::names::{ascending, names, Identifiers, MadeUp, Names, Paths};
use crate::rows::next_index;
use std::collections::HashMap;
use wasmi_collections::string_interner::{StringInterner, Sym};

/// A list of distinct texts, each under its position.
pub trait InternerRows: Default {
    fn intern(&mut self, text: &str) -> u64;

    fn resolve(&self, number: u32) -> &str;
}

/// The Rust crate's.
pub type RustInterner = StringInterner;

impl InternerRows for RustInterner {
    #[inline]
    fn intern(&mut self, text: &str) -> u64 {
        u64::from(self.get_or_intern(text).into_u32())
    }

    #[inline]
    fn resolve(&self, number: u32) -> &str {
        self.resolve(Sym::from_u32(number)).unwrap_or("")
    }
}

/// A `Vec` of texts, and a `HashMap` from these to their indices.
#[derive(Default)]
pub struct PlainInterner {
    texts: Vec<String>,
    index: HashMap<String, u32>,
}

impl InternerRows for PlainInterner {
    #[inline]
    fn intern(&mut self, text: &str) -> u64 {
        if let Some(number) = self.index.get(text) {
            return u64::from(*number);
        }
        let number = self.texts.len() as u32;
        self.texts.push(text.to_owned());
        self.index.insert(text.to_owned(), number);
        u64::from(number)
    }

    #[inline]
    fn resolve(&self, number: u32) -> &str {
        self.texts.get(number as usize).map_or("", String::as_str)
    }
}

#[inline(never)]
fn fill<I: InternerRows>(interner: &mut I, names: &[String], before: u64) -> u64 {
    names
        .iter()
        .fold(before, |sum, name| sum.wrapping_add(interner.intern(name)))
}

fn new<I: InternerRows>(names: &[String], rounds: u64) -> u64 {
    (0..rounds).fold(1, |sum, _| fill(&mut I::default(), names, sum))
}

pub fn intern_new<I: InternerRows, K: Names>(n: u64, rounds: u64) -> u64 {
    new::<I>(&names::<K>(n), rounds)
}

pub fn intern_new_ascending<I: InternerRows>(n: u64, rounds: u64) -> u64 {
    new::<I>(&ascending::<Paths>(n), rounds)
}

pub fn intern_again<I: InternerRows, K: Names>(n: u64, rounds: u64) -> u64 {
    let names = names::<K>(n);
    let mut interner = I::default();
    let sum = fill(&mut interner, &names, 1);
    (0..rounds).fold(sum, |sum, _| fill(&mut interner, &names, sum))
}

/// The next index below `n`, a power of two, of which few come often: of two random ones, one times the other.
pub fn few_often(state: &mut u64, n: u64) -> usize {
    let (one, other) = (next_index(state, n), next_index(state, n));
    (one * other) >> n.trailing_zeros()
}

#[inline(never)]
fn ask<I: InternerRows>(interner: &mut I, names: &[String], n: u64, before: u64) -> u64 {
    let (mut state, mut sum) = (1, before);
    for _ in 0..n {
        let name = &names[few_often(&mut state, names.len() as u64)];
        sum = sum.wrapping_add(interner.intern(name));
    }
    sum
}

pub fn intern_stream<I: InternerRows>(n: u64, rounds: u64) -> u64 {
    let names = names::<Identifiers>(n / 16);
    (0..rounds).fold(1, |sum, _| ask(&mut I::default(), &names, n, sum))
}

#[inline(never)]
fn read<I: InternerRows>(interner: &I, n: u64, before: u64) -> u64 {
    let (mut state, mut sum) = (1, before);
    for _ in 0..n {
        let number = next_index(&mut state, n) as u32;
        sum = sum.wrapping_add(interner.resolve(number).len() as u64);
    }
    sum
}

pub fn resolve<I: InternerRows>(n: u64, rounds: u64) -> u64 {
    let mut interner = I::default();
    let sum = fill(&mut interner, &names::<MadeUp>(n), 1);
    (0..rounds).fold(sum, |sum, _| read(&interner, n, sum))
}
