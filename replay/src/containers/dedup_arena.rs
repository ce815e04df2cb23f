//! `DedupArena`, which gives equal values one key. A line names a key by its number.

use super::Container;
use crate::answers::{
    counted, done, index_written, indexed, key_of, keyed, keyed_renewed, numbered, option,
    overwritten, read, result, steps_of, take_steps, write_all, Answer, BAD,
};
use crate::generate::{Generator, SHORT};
use crate::public_calls::{Calls, CUT};
use std::mem;
use wasmi_collections::arena::{ArenaError, ArenaKey, DedupArena};

pub const CALLS: Calls = Calls {
    named: "len is_empty clear alloc get get_mut",
    ports: "replace key_of next_key put has",
    others: &[
        ("`new`", "on"),
        ("`from_iter`, of distinct values", "from_iter"),
        ("`arena[key]`", "index"),
        ("`arena[key] = item`", "index_mut"),
        ("`iter`, its `next`, `next_back` and `len`", "iter"),
        ("`for` over `&`", "for"),
        ("`iter_mut`, its `next`, `next_back` and `len`", "iter_mut"),
        ("`for` over `&mut`", "for_mut"),
        ("`==`", "eq"),
        ("the port's `index`", "index_of"),
    ],
    never: &[
        (
            "`from_iter` of equal values",
            "the port keeps no duplicates (docs/DIFFERENCES.md, '`DedupArena::alloc`, `from_iter`')",
        ),
        ("`default`", CUT),
        (
            "`Debug`",
            "the port's text is another (docs/DIFFERENCES.md, '`Debug` of `DedupArena`'); the driver makes that \
            from the keys and the items",
        ),
        ("`Send`, `Sync`", CUT),
    ],
};

const ITEMS: [&str; 8] = [
    "get",
    "get",
    "get_mut N",
    "get_mut N",
    "put N",
    "has",
    "index",
    "index_mut N",
];

impl Generator {
    pub fn dedup_call(&mut self, target: usize) -> String {
        let times = if self.len < target { 2 } else { 40 };
        if self.random.once_in(times) {
            return self.add("alloc");
        }
        match self.random.below(25) {
            0 => "len".into(),
            1 => "is_empty".into(),
            2..=7 => self.item(&ITEMS),
            8..=9 => format!("key_of {}", self.value()),
            10 => format!("index_of {}", self.value()),
            11..=12 => format!("iter {}", self.steps()),
            13 => self.shown(),
            14 => self.cleared(),
            15 => self.rebuilt(),
            16 => "eq".into(),
            17 => self.allocated_again(),
            18..=20 => self.replaced(),
            21 => "next_key".into(),
            _ => self.dedup_written(),
        }
    }

    /// A value is handed in, its item written to, and the value handed in again.
    fn allocated_again(&mut self) -> String {
        let item = self.value();
        let write = self.item_written();
        let alloc = format!("alloc {item}");
        self.pending.push(format!("key_of {item}"));
        self.pending.push(alloc.clone());
        self.pending.push(write);
        self.len = (self.len + 1).min(self.most);
        alloc
    }

    /// A value takes the place of the one that was handed in under a key. Mostly one looks it up then, or hands it in,
    /// or puts it there again.
    fn replaced(&mut self) -> String {
        let (number, new) = (self.index(), self.value());
        let replace = format!("replace {number} {new}");
        let next = match self.random.below(8) {
            0..=1 => format!("key_of {new}"),
            2 => format!("index_of {new}"),
            3 => {
                self.len = (self.len + 1).min(self.most);
                format!("alloc {new}")
            }
            4 => format!("replace {number} {}", self.value()),
            5 => replace.clone(),
            _ => self.all_if_short(),
        };
        self.pending.push(next);
        replace
    }

    /// A walk that writes some items, or all where there are few. The next call reads them.
    fn dedup_written(&mut self) -> String {
        if self.len > SHORT && !self.seldom() {
            return self.some_written();
        }
        self.pending.push("for".into());
        format!("for_mut {}", self.value())
    }
}

/// An arena of distinct numbers, with the values handed in, by which the port's `index` is compared: by
/// docs/DIFFERENCES.md, `DedupArena`, the Rust crate lends no index.
pub struct Dedup<Key> {
    arena: DedupArena<Key, i64>,
    handed: Vec<i64>,
}

impl<Key: ArenaKey> Dedup<Key> {
    fn alloc(&mut self, item: i64) -> Result<Key, ArenaError> {
        let key = self.arena.alloc(item)?;
        if key.into_usize() == self.handed.len() {
            self.handed.push(item);
        }
        Ok(key)
    }

    /// By docs/DIFFERENCES.md, `DedupArena::alloc`, `from_iter`, this keeps duplicates, and the port doesn't. The
    /// numbers of a line are distinct. The port fails where one gets no key; here that panics.
    fn collect(&mut self, items: impl ExactSizeIterator<Item = i64>) -> Result<(), ArenaError> {
        if let Some(last) = items.len().checked_sub(1) {
            Key::from_usize(last).ok_or(ArenaError::NotEnoughKeys)?;
        }
        self.handed = items.collect();
        self.arena = self.handed.iter().copied().collect();
        Ok(())
    }

    /// The port alone has this call. The value takes the place of the one handed in under the key, and becomes the item,
    /// unless it was handed in under another key.
    fn replace(&mut self, key: Key, new: i64) -> Result<i64, String> {
        let number = key.into_usize();
        let there = self.arena.get_mut(key).map_err(|error| error.to_string())?;
        let old = mem::replace(there, new);
        match self.key_of(new) {
            Some(at) if at == number => (),
            Some(_) => {
                self.arena[key] = old;
                return Err("item is already in the arena".to_owned());
            }
            None => {
                self.handed[number] = new;
                self.rebuild();
            }
        }
        Ok(old)
    }

    /// Makes the arena anew, with the values handed in for keys, and its items.
    fn rebuild(&mut self) {
        let mut arena: DedupArena<Key, i64> = self.handed.iter().copied().collect();
        for (key, item) in &self.arena {
            arena[key] = *item;
        }
        self.arena = arena;
    }

    fn key_of(&self, item: i64) -> Option<usize> {
        self.handed.iter().position(|handed| *handed == item)
    }

    /// Makes a call on the item under a key.
    fn answer_item(&mut self, words: &[&str]) -> Answer {
        Ok(match *words {
            ["get", number] => result(self.arena.get(key_of(number)?)),
            // The port alone has the second call, and `has` and `replace`.
            ["get_mut" | "put", number, new] => {
                overwritten(self.arena.get_mut(key_of(number)?), read(new)?)
            }
            ["has", number] => self.arena.get(key_of(number)?).is_ok().to_string(),
            ["replace", number, new] => result(self.replace(key_of(number)?, read(new)?)),
            ["index", number] => {
                let key: Key = key_of(number)?;
                indexed(|| self.arena[key])
            }
            ["index_mut", number, new] => {
                let (key, new): (Key, i64) = (key_of(number)?, read(new)?);
                index_written(|| self.arena[key] = new)
            }
            _ => return Err(BAD),
        })
    }
}

impl<Key: ArenaKey> PartialEq for Dedup<Key> {
    fn eq(&self, other: &Self) -> bool {
        self.arena == other.arena
    }
}

impl<Key: ArenaKey> Container for Dedup<Key> {
    fn empty() -> Self {
        Dedup {
            arena: DedupArena::new(),
            handed: Vec::new(),
        }
    }

    // By docs/DIFFERENCES.md, '`Debug` of `DedupArena`'.
    fn debug(&self) -> String {
        numbered(self.arena.iter().map(|(_, item)| item))
    }

    fn answer(&mut self, _: &mut Self, words: &[&str]) -> Answer {
        let arena = &mut self.arena;
        Ok(match *words {
            ["len"] => arena.len().to_string(),
            ["is_empty"] => arena.is_empty().to_string(),
            ["clear"] => {
                arena.clear();
                done(self.handed.clear())
            }
            ["alloc", item] => result(self.alloc(read(item)?).map(Key::into_usize)),
            // The port alone has it.
            ["next_key"] => {
                let key = Key::from_usize(self.handed.len()).ok_or(ArenaError::NotEnoughKeys);
                result(key.map(Key::into_usize))
            }
            ["key_of" | "index_of", item] => option(self.key_of(read(item)?)),
            ["from_iter", first, count] => result(self.collect(counted(first, count)?).map(done)),
            ["iter", steps] => take_steps(arena.iter(), steps_of(steps)?, keyed),
            ["for"] => write_all(arena.len(), &*arena, keyed),
            ["iter_mut", steps, first] => take_steps(
                arena.iter_mut(),
                steps_of(steps)?,
                keyed_renewed(read(first)?),
            ),
            ["for_mut", first] => write_all(arena.len(), arena, keyed_renewed(read(first)?)),
            _ => return self.answer_item(words),
        })
    }
}
