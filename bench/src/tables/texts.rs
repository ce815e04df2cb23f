//! The rows of maps whose keys are names, which are looked up by a text.

use super::names::{names, MadeUp};
use crate::rows::next_index;
use std::collections::{BTreeMap, HashMap};

/// A map from names to numbers.
pub trait TextRows: Default {
    fn put(&mut self, name: String, value: u64);
    fn read(&self, name: &str) -> Option<u64>;
}

/// The Rust crate's, as it is built here an ordered one.
pub type OrderedNames = wasmi_collections::Map<String, u64>;
pub type PlainTreeNames = BTreeMap<String, u64>;
pub type PlainTableNames = HashMap<String, u64>;

macro_rules! text_rows {
    ($($map:ty),*) => {$(
        impl TextRows for $map {
            fn put(&mut self, name: String, value: u64) {
                self.insert(name, value);
            }

            #[inline]
            fn read(&self, name: &str) -> Option<u64> {
                self.get(name).copied()
            }
        }
    )*};
}

text_rows!(OrderedNames, PlainTreeNames, PlainTableNames);

#[inline(never)]
fn get_all<M: TextRows>(map: &M, names: &[String], n: u64, before: u64) -> u64 {
    let mut state = 1;
    (0..n).fold(before, |sum, _| {
        let name = &names[next_index(&mut state, n)];
        sum.wrapping_add(map.read(name).unwrap_or(0))
    })
}

pub fn map_get_str<M: TextRows>(n: u64, rounds: u64) -> u64 {
    let keys = names::<MadeUp>(n);
    let mut map = M::default();
    for (name, value) in names::<MadeUp>(n).into_iter().zip(0..) {
        map.put(name, value);
    }
    (0..rounds).fold(1, |sum, _| get_all(&map, &keys, n, sum))
}
