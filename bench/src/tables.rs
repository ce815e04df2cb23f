//! The rows of maps and sets, for any of Rust's.

mod dedup;
mod hashed_interner;
mod interner;
mod maps;
mod names;
mod sets;
mod texts;
mod word_hash;

pub use dedup::{
    dedup_again, dedup_new, dedup_replace, dedup_replace_written, DedupRows, PlainDedup, RustDedup,
};
pub use hashed_interner::HashedInterner;
pub use interner::{
    few_often, intern_again, intern_new, intern_new_ascending, intern_stream, resolve,
    InternerRows, PlainInterner, RustInterner,
};
pub use maps::{map_append, map_entry, map_get, map_insert, map_iter, MapRows};
pub use names::{scattered, Colliding, Identifiers, MadeUp, Mangled, Names, Paths};
pub use sets::{set_contains, set_insert, set_iter, set_union, SetRows};
pub use texts::{map_get_str, OrderedNames, PlainTableNames, PlainTreeNames, TextRows};

use std::collections::{BTreeMap, BTreeSet, HashMap, HashSet};

/// The Rust crate's map and set, as it is built without its feature `hash-collections`: ordered ones.
pub type OrderedMap = wasmi_collections::Map<u64, u64>;
pub type OrderedSet = wasmi_collections::Set<u64>;

pub type PlainTree = BTreeMap<u64, u64>;
pub type PlainTreeSet = BTreeSet<u64>;

/// Rust's hashed map and set. With its feature the Rust crate's are these, behind calls of one line: `hashbrown`'s,
/// with the standard library's state.
pub type PlainTable = HashMap<u64, u64>;
pub type PlainTableSet = HashSet<u64>;

/// A key for each number, no two alike, and in no order.
pub fn key_of(number: u64) -> u64 {
    let mixed = number.wrapping_mul(0x9e3779b97f4a7c15);
    (mixed ^ (mixed >> 32)).wrapping_mul(0xd6e8feb86659fd93)
}
