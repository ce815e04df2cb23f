//! What `StableArena` and `Arena` have in common. A line names a key by its number.

use crate::generate::{Generator, SHORT};

const ITEMS: [&str; 8] = [
    "get",
    "get",
    "get_mut N",
    "get_mut N",
    "put N",
    "index",
    "index_mut N",
    "has",
];

impl Generator {
    pub fn arena_item(&mut self) -> String {
        self.item(&ITEMS)
    }

    pub fn several_allocated(&mut self, target: usize) -> String {
        self.several(target, |_, count| format!("alloc_many {count}"))
    }

    /// A walk that writes all items, which the next call reads. Mostly one that writes some where there are many.
    pub fn all_written(&mut self) -> String {
        if self.len > SHORT && !self.seldom() {
            return self.some_written();
        }
        self.whole_written()
    }
}

/// Writes the calls that both arenas have. The others are made by `answer_own`.
macro_rules! any_arena {
    ($Arena:ident) => {
        impl<Key: ArenaKey + Debug> Container for $Arena<Key, i64> {
            fn empty() -> Self {
                $Arena::new()
            }

            // By docs/DIFFERENCES.md, '`Debug` of `StableArena`' and '`Debug` of `Arena`'.
            fn debug(&self) -> String {
                numbered(self.iter().map(|(_, item)| item))
            }

            fn answer(&mut self, other: &mut Self, words: &[&str]) -> Answer {
                Ok(match *words {
                    ["len"] => self.len().to_string(),
                    ["is_empty"] => self.is_empty().to_string(),
                    ["alloc", item] => result(self.alloc(read(item)?).map(Key::into_usize)),
                    ["alloc_many", count] => result(alloc_many(self, read(count)?)),
                    ["from_iter", first, count] => {
                        result(collect(self, counted(first, count)?).map(done))
                    }
                    ["get", number] => result(self.get(key_of(number)?)),
                    ["get_mut", number, new] => {
                        overwritten(self.get_mut(key_of(number)?), read(new)?)
                    }
                    ["index", number] => {
                        let key: Key = key_of(number)?;
                        indexed(|| self[key])
                    }
                    ["index_mut", number, new] => {
                        let (key, new): (Key, i64) = (key_of(number)?, read(new)?);
                        index_written(|| self[key] = new)
                    }
                    ["iter", steps] => take_steps(self.iter(), steps_of(steps)?, keyed),
                    ["for"] => write_all(self.len(), &*self, keyed),
                    ["iter_mut", steps, first] => take_steps(
                        self.iter_mut(),
                        steps_of(steps)?,
                        keyed_renewed(read(first)?),
                    ),
                    ["for_mut", first] => write_all(self.len(), self, keyed_renewed(read(first)?)),
                    ["rev_mut", first] => write_all(
                        self.len(),
                        self.iter_mut().rev(),
                        keyed_renewed(read(first)?),
                    ),
                    // The port alone has these calls, `next_key` as a public one.
                    ["next_key"] => {
                        let key = Key::from_usize(self.len()).ok_or(ArenaError::NotEnoughKeys);
                        result(key.map(Key::into_usize))
                    }
                    ["put", number, new] => overwritten(self.get_mut(key_of(number)?), read(new)?),
                    ["has", number] => self.get(key_of(number)?).is_ok().to_string(),
                    ["swap", first, second] => {
                        let keys = [key_of(first)?, key_of(second)?];
                        let items = self.get_disjoint_mut(keys);
                        result(items.map(|[one, other]| done(mem::swap(one, other))))
                    }
                    _ => return answer_own(self, other, words),
                })
            }
        }

        /// By docs/DIFFERENCES.md, `StableArena::alloc_many` and `Arena::alloc_many`: after an error the port's arena is
        /// as before. Here the items are in, so the arena is made anew from those before them.
        fn alloc_many<Key: ArenaKey>(
            arena: &mut $Arena<Key, i64>,
            count: u16,
        ) -> Result<String, ArenaError> {
            let len = arena.len();
            let outcome = arena.alloc_many(count.into());
            if outcome.is_err() {
                *arena = arena.iter().take(len).map(|(_, item)| *item).collect();
            }
            let keys = outcome?;
            Ok(format!(
                "{} {}",
                keys.start.into_usize(),
                keys.end.into_usize()
            ))
        }

        /// By docs/DIFFERENCES.md, `StableArena::from_iter` and `Arena::from_iter`: the port fails where an item gets no
        /// key. Here no key is asked for.
        fn collect<Key: ArenaKey>(
            arena: &mut $Arena<Key, i64>,
            items: impl ExactSizeIterator<Item = i64>,
        ) -> Result<(), ArenaError> {
            if let Some(last) = items.len().checked_sub(1) {
                Key::from_usize(last).ok_or(ArenaError::NotEnoughKeys)?;
            }
            *arena = items.collect();
            Ok(())
        }
    };
}

pub(super) use any_arena;
