//! Names by rule, of the kinds that programs intern. The port's side makes the same.

use super::key_of;
use std::fmt::Write;

/// What names are like.
pub trait Names {
    /// The name of a number below 2^20.
    fn name(number: u64) -> String;
}

/// A word and twenty digits.
pub struct MadeUp;

/// Paths of files, of some 65 to 90 bytes, which begin alike. They ascend as their numbers do.
pub struct Paths;

/// Symbols of a linker, of some 30 to 110 bytes, many of one length.
pub struct Mangled;

/// A word and a number.
pub struct Identifiers;

/// Texts of 32 bytes that all have one hash in the port's interner.
pub struct Colliding;

const WORDS: [&str; 16] = [
    "arena",
    "block",
    "compiler",
    "decoder",
    "engine",
    "executor",
    "function",
    "global",
    "instance",
    "interpreter",
    "linker",
    "memory",
    "module",
    "store",
    "translator",
    "validation",
];

fn word(number: u64) -> &'static str {
    WORDS[(number % 16) as usize]
}

impl Names for MadeUp {
    fn name(number: u64) -> String {
        format!("name{}", key_of(number))
    }
}

impl Names for Paths {
    fn name(number: u64) -> String {
        let (project, folder, file) = (number >> 10, (number >> 5) % 32, number % 32);
        let (one, other) = (word(project), word(folder));
        format!(
            "/opt/build/src/{project:03x}-{one}/lib/{folder:02x}-{other}/include/{one}/{file:02x}-{}.hpp",
            word(file)
        )
    }
}

impl Names for Mangled {
    fn name(number: u64) -> String {
        let mut name = "_ZN4wasm".to_owned();
        for level in 0..number % 8 {
            let part = word(number >> level);
            let _ = write!(name, "{}{part}", part.len());
        }
        let _ = write!(name, "17h{:016x}E", key_of(number));
        name
    }
}

impl Names for Identifiers {
    fn name(number: u64) -> String {
        format!("{}{}", word(number), number / 16)
    }
}

impl Names for Colliding {
    fn name(number: u64) -> String {
        format!("they-meet-xaennpvzjyrlqs{number:08x}")
    }
}

/// Another number below `n` for each number below it, in no order. `n` is a power of two.
pub fn scattered(number: u64, n: u64) -> u64 {
    number.wrapping_mul(0x9e3779b1) & n.wrapping_sub(1)
}

/// `n` names of a kind, no two alike, in the order of their numbers. `n` is a power of two.
pub fn ascending<K: Names>(n: u64) -> Vec<String> {
    (0..n).map(K::name).collect()
}

/// The same in no order.
pub fn names<K: Names>(n: u64) -> Vec<String> {
    (0..n).map(|i| K::name(scattered(i, n))).collect()
}
