//! The containers. The file of each has its public calls, how they are drawn, and how the Rust crate answers.

mod arena;
mod arenas;
mod backing;
mod buckets;
mod component_vec;
mod dedup_arena;
mod few_keys;
mod head_vec;
mod map;
mod set;
mod stable_arena;
mod stable_vec;
mod string_interner;
mod tables;

use crate::answers::{Answer, BAD};
use crate::generate::Generator;
use crate::public_calls::Calls;
use component_vec::Components;
use dedup_arena::Dedup;
use few_keys::FewKeys;
use std::collections::{HashMap, HashSet};
use std::fmt::Debug;
use std::mem;
use std::num::NonZero;
use wasmi_collections::arena::{Arena, ArenaKey, StableArena, StableVec};
use wasmi_collections::{HeadVec, Map, Set, StringInterner};

/// A type of containers.
pub struct Kind {
    /// The word by which a line `on ..` names it.
    pub name: &'static str,
    /// The words for its types of keys, which follow the name. Empty if none follows.
    pub keys: &'static [&'static str],
    pub title: &'static str,
    pub calls: &'static [Calls],
    /// Draws the next call. Up to a length about every second one adds an item, and few do after it.
    pub draw: fn(&mut Generator, usize) -> String,
    /// The line that prints all items.
    pub all: &'static str,
}

const KEYS: &[&str] = &["u32", "usize", "non_zero_u32", "non_zero_usize", "few"];

pub static KINDS: [Kind; 11] = [
    Kind {
        name: "stable_vec",
        keys: &[],
        title: "`StableVec`",
        calls: &[stable_vec::CALLS],
        draw: Generator::vec_call,
        all: "for",
    },
    Kind {
        name: "stable_arena",
        keys: KEYS,
        title: "`StableArena`",
        calls: &[stable_arena::CALLS],
        draw: Generator::stable_arena_call,
        all: "for",
    },
    Kind {
        name: "arena",
        keys: KEYS,
        title: "`Arena`",
        calls: &[arena::CALLS],
        draw: Generator::arena_call,
        all: "for",
    },
    Kind {
        name: "component_vec",
        keys: KEYS,
        title: "`ComponentVec`",
        calls: &[component_vec::CALLS],
        draw: Generator::component_call,
        all: "debug",
    },
    Kind {
        name: "head_vec",
        keys: &[],
        title: "`HeadVec`",
        calls: &[head_vec::CALLS],
        draw: Generator::head_call,
        all: "debug",
    },
    Kind {
        name: "ordered_map",
        keys: &[],
        title: "ordered `Map`",
        calls: &[map::CALLS, backing::ORDERED],
        draw: Generator::map_call,
        all: "for",
    },
    Kind {
        name: "ordered_set",
        keys: &[],
        title: "ordered `Set`",
        calls: &[set::CALLS, backing::ORDERED],
        draw: Generator::set_call,
        all: "for",
    },
    Kind {
        name: "hashed_map",
        keys: &[],
        title: "hashed `Map`, for which Rust's `HashMap` stands",
        calls: &[map::CALLS, backing::HASHED],
        draw: Generator::map_call,
        all: "for",
    },
    Kind {
        name: "hashed_set",
        keys: &[],
        title: "hashed `Set`, for which Rust's `HashSet` stands",
        calls: &[set::CALLS, backing::HASHED],
        draw: Generator::set_call,
        all: "for",
    },
    Kind {
        name: "dedup_arena",
        keys: &["usize", "few"],
        title: "`DedupArena`",
        calls: &[dedup_arena::CALLS],
        draw: Generator::dedup_call,
        all: "for",
    },
    Kind {
        name: "string_interner",
        keys: &[],
        title: "`StringInterner`",
        calls: &[string_interner::CALLS],
        draw: Generator::interner_call,
        all: "debug",
    },
];

impl Kind {
    /// What a line `on ..` names: the container with each type of keys.
    pub fn names(&self) -> Vec<String> {
        match self.keys {
            [] => vec![self.name.to_owned()],
            keys => keys
                .iter()
                .map(|key| format!("{} {key}", self.name))
                .collect(),
        }
    }
}

/// A container of the Rust crate.
trait Container: PartialEq {
    fn empty() -> Self;

    /// Its text by `{:?}`.
    fn debug(&self) -> String;

    /// Makes the call that the words of a line name. The other container lies beside this one.
    fn answer(&mut self, other: &mut Self, words: &[&str]) -> Answer;
}

/// A container at work, and the other one.
struct Beside<C> {
    container: C,
    other: C,
}

trait Serve {
    fn serve(&mut self, words: &[&str]) -> Answer;
}

impl<C: Container> Serve for Beside<C> {
    /// Makes a call that each container has, or one of its own.
    fn serve(&mut self, words: &[&str]) -> Answer {
        match *words {
            ["exchange"] => {
                mem::swap(&mut self.container, &mut self.other);
                Ok("done".to_owned())
            }
            ["eq"] => Ok((self.container == self.other).to_string()),
            ["debug"] => Ok(self.container.debug()),
            _ => self.container.answer(&mut self.other, words),
        }
    }
}

/// One line for each line of the input.
pub fn answer(input: &str) -> String {
    let mut served: Option<Box<dyn Serve>> = None;
    let mut output = String::new();
    for line in input.split_terminator('\n') {
        let words: Vec<&str> = line.split(' ').collect();
        let answer = match (words.as_slice(), &mut served) {
            (["on", name, keys @ ..], _) => {
                served = named(name, keys);
                served.as_ref().map(|_| "new".to_owned()).ok_or(BAD)
            }
            (words, Some(container)) => container.serve(words),
            (_, None) => Err(BAD),
        };
        output += &answer.unwrap_or_else(str::to_owned);
        output += "\n";
    }
    output
}

/// A new container of this name.
fn named(name: &str, keys: &[&str]) -> Option<Box<dyn Serve>> {
    match (name, keys) {
        ("stable_vec", []) => begin::<StableVec<i64>>(),
        ("head_vec", []) => begin::<HeadVec<i64>>(),
        ("ordered_map", []) => begin::<Map<i64, i64>>(),
        ("ordered_set", []) => begin::<Set<i64>>(),
        ("hashed_map", []) => begin::<HashMap<i64, i64>>(),
        ("hashed_set", []) => begin::<HashSet<i64>>(),
        ("string_interner", []) => begin::<StringInterner>(),
        (_, ["u32"]) => keyed::<u32>(name),
        (_, ["usize"]) => keyed::<usize>(name),
        (_, ["non_zero_u32"]) => keyed::<NonZero<u32>>(name),
        (_, ["non_zero_usize"]) => keyed::<NonZero<usize>>(name),
        (_, ["few"]) => keyed::<FewKeys>(name),
        _ => None,
    }
}

/// The same with keys of a type.
fn keyed<Key: ArenaKey + Debug + 'static>(name: &str) -> Option<Box<dyn Serve>> {
    match name {
        "stable_arena" => begin::<StableArena<Key, i64>>(),
        "arena" => begin::<Arena<Key, i64>>(),
        "dedup_arena" => begin::<Dedup<Key>>(),
        "component_vec" => begin::<Components<Key>>(),
        _ => None,
    }
}

fn begin<C: Container + 'static>() -> Option<Box<dyn Serve>> {
    Some(Box::new(Beside {
        container: C::empty(),
        other: C::empty(),
    }))
}
