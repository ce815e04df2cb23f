//! `Map`: the Rust crate's, which is ordered, and Rust's hashed one.

use super::backing::Backing;
use super::tables::{number, stepped, walk, BORROWED, OTHER_TEXT};
use super::Container;
use crate::answers::{
    braced, counted, done, indexed, option, read, write_all, written, Answer, BAD,
};
use crate::generate::Generator;
use crate::public_calls::{Calls, CUT};
use std::collections::{hash_map, HashMap};
use std::mem;
use wasmi_collections::{map, Map};

pub const CALLS: Calls = Calls {
    named: "clear len is_empty reserve contains_key get get_key_value get_mut insert remove \
        remove_entry retain extend from_iter clone",
    others: &[
        ("`new`", "on"),
        ("`map[&key]`", "index"),
        ("`iter`, its `next` and `len`", "iter"),
        ("`keys`, its `next` and `len`", "keys"),
        ("`values`, its `next` and `len`", "values"),
        ("`iter_mut`, its `next` and `len`", "iter_mut"),
        ("`values_mut`, its `next` and `len`", "values_mut"),
        ("`into_iter`, its `next` and `len`", "into_iter"),
        ("`into_keys`, its `next` and `len`", "into_keys"),
        ("`into_values`, its `next` and `len`", "into_values"),
        ("`for` over `&`", "for"),
        ("`for` over `&mut`", "for_mut"),
        ("`extend` by reference", "extend_ref"),
        ("`==`", "eq"),
        (
            "`entry`",
            "entry entry_key or_insert or_insert_with or_insert_with_key or_default and_modify \
            occupied_get_mut occupied_insert occupied_into_mut occupied_remove \
            occupied_remove_entry vacant_insert vacant_into_key",
        ),
        ("`Entry::key`", "entry_key"),
        ("`Entry::or_insert`", "or_insert and_modify"),
        ("`Entry::or_insert_with`", "or_insert_with"),
        ("`Entry::or_insert_with_key`", "or_insert_with_key"),
        ("`Entry::or_default`", "or_default"),
        ("`Entry::and_modify`", "and_modify"),
        ("`OccupiedEntry::key`, `get`; `VacantEntry::key`", "entry"),
        ("`OccupiedEntry::get_mut`", "occupied_get_mut"),
        ("`OccupiedEntry::insert`", "occupied_insert"),
        ("`OccupiedEntry::into_mut`", "occupied_into_mut"),
        ("`OccupiedEntry::remove`", "occupied_remove"),
        ("`OccupiedEntry::remove_entry`", "occupied_remove_entry"),
        ("`VacantEntry::insert`", "vacant_insert"),
        ("`VacantEntry::into_key`", "vacant_into_key"),
    ],
    never: &[
        ("`default`", CUT),
        ("look-ups by a `&Q`", BORROWED),
        ("`Debug`", OTHER_TEXT),
        ("`Debug` of an entry", CUT),
        ("`size_hint`, `Clone` and `Debug` of an iterator", CUT),
        ("`Send`, `Sync`", CUT),
    ],
    ..Calls::NONE
};

impl Generator {
    pub fn map_call(&mut self, target: usize) -> String {
        let times = if self.len < target { 2 } else { 40 };
        if self.random.once_in(times) {
            return self.map_added(target);
        }
        match self.random.below(22) {
            0 => "len".into(),
            1 => "is_empty".into(),
            2..=6 => self.map_looked_up(target),
            7..=8 => self.map_taken_out(target),
            9..=10 => self.entry(target),
            11..=12 => self.walk(&["iter", "keys", "values"]),
            13 => self.map_written(),
            14 => self.several_keys(target),
            15..=16 => self.table_beside(target, Generator::map_added, Generator::map_taken_out),
            17 => "eq".into(),
            18 => self.thinned(),
            19..=20 => self.of_backing(target),
            _ => self.table_reserved(),
        }
    }

    fn map_added(&mut self, target: usize) -> String {
        self.len += 1;
        let key = self.new_key(target);
        let (item, new) = (self.value(), self.value());
        match self.random.below(12) {
            0 => format!("or_insert {key} {item} {new}"),
            1 => format!("or_insert_with {key} {item} {new}"),
            2 => format!("or_insert_with_key {key} {new}"),
            3 => format!("or_default {key} {new}"),
            4 => format!("and_modify {key} {item} {new}"),
            5 => format!("vacant_insert {key} {item} {new}"),
            _ => format!("insert {key} {item}"),
        }
    }

    fn map_looked_up(&mut self, target: usize) -> String {
        let (key, new) = (self.key(target), self.value());
        match self.random.below(5) {
            0 => format!("get {key}"),
            1 => format!("get_mut {key} {new}"),
            2 => format!("contains_key {key}"),
            3 => format!("get_key_value {key}"),
            _ => format!("index {key}"),
        }
    }

    fn map_taken_out(&mut self, target: usize) -> String {
        let name = self.random.one_of(&["remove", "remove_entry"]);
        format!("{name} {}", self.key(target))
    }

    fn entry(&mut self, target: usize) -> String {
        let new = self.value();
        let choice = self.random.below(8);
        let key = self.key(target);
        match choice {
            0 => format!("entry {key}"),
            1 => format!("entry_key {key}"),
            2 => format!("occupied_get_mut {key} {new}"),
            3 => format!("occupied_insert {key} {new}"),
            4 => format!("occupied_into_mut {key} {new}"),
            5 => format!("occupied_remove {key}"),
            6 => format!("occupied_remove_entry {key}"),
            _ => format!("vacant_into_key {key}"),
        }
    }

    /// A walk that writes the items, which the next call reads.
    fn map_written(&mut self) -> String {
        if !self.is_whole() {
            return "len".into();
        }
        let (steps, add) = (self.few_steps(), self.value());
        let read = self.random.one_of(&["for", "debug"]);
        self.pending.push(read.into());
        match self.random.below(3) {
            0 => format!("for_mut {add}"),
            1 => format!("iter_mut {steps} {add}"),
            _ => format!("values_mut {steps} {add}"),
        }
    }
}

// The entry of a key that is there.
macro_rules! occupied {
    ($entries:ident, $map:ident, $key:ident) => {
        match $map.entry(read($key)?) {
            $entries::Entry::Occupied(entry) => entry,
            $entries::Entry::Vacant(_) => return Ok("vacant".to_owned()),
        }
    };
}

// The entry of a key that isn't there.
macro_rules! vacant {
    ($entries:ident, $map:ident, $key:ident) => {
        match $map.entry(read($key)?) {
            $entries::Entry::Vacant(entry) => entry,
            $entries::Entry::Occupied(_) => return Ok("occupied".to_owned()),
        }
    };
}

/// Calls on a map. Each is asked where the one before knows no such call.
trait AnyMap: Backing {
    fn answer_map(&mut self, other: &mut Self, words: &[&str]) -> Answer;

    fn answer_key(&mut self, words: &[&str]) -> Answer;

    fn answer_walk(&mut self, words: &[&str]) -> Answer;

    fn answer_entry(&mut self, words: &[&str]) -> Answer;

    fn answer_side(&mut self, words: &[&str]) -> Answer;
}

/// Writes the calls on a type of maps, with its module of entries.
macro_rules! any_map {
    ($Map:ident, $entries:ident) => {
        impl Container for $Map<i64, i64> {
            fn empty() -> Self {
                Self::default()
            }

            fn debug(&self) -> String {
                braced(self.iter().map(|(key, item)| format!("{key}: {item}")))
            }

            fn answer(&mut self, other: &mut Self, words: &[&str]) -> Answer {
                let answer = self.answer_backing(other, words);
                answer.or_else(|_| self.answer_map(other, words))
            }
        }

        impl AnyMap for $Map<i64, i64> {
            fn answer_map(&mut self, other: &mut Self, words: &[&str]) -> Answer {
                Ok(match *words {
                    ["len"] => self.len().to_string(),
                    ["is_empty"] => self.is_empty().to_string(),
                    ["clear"] => done(self.clear()),
                    ["reserve", count] => done(self.reserve(read::<u16>(count)?.into())),
                    ["extend", key, step, item, count] => {
                        done(self.extend(stepped(key, step, count)?.zip(counted(item, count)?)))
                    }
                    ["from_iter", key, step, item, count] => {
                        let pairs = stepped(key, step, count)?.zip(counted(item, count)?);
                        done(*self = pairs.collect())
                    }
                    ["extend_ref"] => done(self.extend(&*other)),
                    ["clone"] => done(*other = self.clone()),
                    ["retain", mask, add] => {
                        let (mask, add): (i64, i64) = (read(mask)?, read(add)?);
                        let mut calls = 0_u64;
                        self.retain(|key, item| {
                            calls += 1;
                            *item = item.wrapping_add(add);
                            (*key ^ *item) & mask != 0
                        });
                        calls.to_string()
                    }
                    _ => return self.answer_key(words),
                })
            }

            fn answer_key(&mut self, words: &[&str]) -> Answer {
                Ok(match *words {
                    // By docs/DIFFERENCES.md, `Map::insert`: no error here.
                    ["insert", key, item] => option(self.insert(read(key)?, read(item)?)),
                    ["get", key] => option(self.get(&number(key)?)),
                    ["get_mut", key, new] => written(self.get_mut(&number(key)?), read(new)?),
                    ["contains_key", key] => self.contains_key(&number(key)?).to_string(),
                    ["get_key_value", key] => option(self.get_key_value(&number(key)?).map(text)),
                    // By docs/DIFFERENCES.md, '`Map` by index'.
                    ["index", key] => {
                        let key: i64 = read(key)?;
                        indexed(|| self[&key])
                    }
                    ["remove", key] => option(self.remove(&number(key)?)),
                    ["remove_entry", key] => option(self.remove_entry(&number(key)?).map(owned)),
                    _ => return self.answer_walk(words),
                })
            }

            fn answer_walk(&mut self, words: &[&str]) -> Answer {
                Ok(match *words {
                    ["iter", steps] => walk(read(steps)?, self.iter(), text),
                    ["keys", steps] => walk(read(steps)?, self.keys(), i64::to_string),
                    ["values", steps] => walk(read(steps)?, self.values(), i64::to_string),
                    ["into_iter", steps] => walk(read(steps)?, mem::take(self).into_iter(), owned),
                    ["into_keys", steps] => {
                        walk(read(steps)?, mem::take(self).into_keys(), |key| {
                            key.to_string()
                        })
                    }
                    ["into_values", steps] => {
                        walk(read(steps)?, mem::take(self).into_values(), |item| {
                            item.to_string()
                        })
                    }
                    ["iter_mut", steps, add] => {
                        walk(read(steps)?, self.iter_mut(), raised(read(add)?))
                    }
                    ["values_mut", steps, add] => {
                        let add = read(add)?;
                        walk(read(steps)?, self.values_mut(), |item| {
                            raise(item, add).to_string()
                        })
                    }
                    ["for"] => write_all(self.len(), &*self, text),
                    ["for_mut", add] => write_all(self.len(), self, raised(read(add)?)),
                    _ => return self.answer_entry(words),
                })
            }

            // By docs/DIFFERENCES.md, '`Map::entry`, the `or_` calls, `VacantEntry::insert`': no error here.
            fn answer_entry(&mut self, words: &[&str]) -> Answer {
                Ok(match *words {
                    ["entry_key", key] => self.entry(read(key)?).key().to_string(),
                    ["or_insert", key, item, new] => {
                        let (item, new) = (read(item)?, read(new)?);
                        written(Some(self.entry(read(key)?).or_insert(item)), new)
                    }
                    ["or_insert_with", key, item, new] => {
                        let (item, new) = (read(item)?, read(new)?);
                        written(Some(self.entry(read(key)?).or_insert_with(|| item)), new)
                    }
                    ["or_insert_with_key", key, new] => {
                        let new = read(new)?;
                        let entry = self.entry(read(key)?);
                        written(
                            Some(entry.or_insert_with_key(|key| key.wrapping_neg())),
                            new,
                        )
                    }
                    ["or_default", key, new] => {
                        let new = read(new)?;
                        written(Some(self.entry(read(key)?).or_default()), new)
                    }
                    ["and_modify", key, add, item] => {
                        let (add, item): (i64, i64) = (read(add)?, read(item)?);
                        let entry = self.entry(read(key)?);
                        let entry = entry.and_modify(|item| *item = item.wrapping_add(add));
                        entry.or_insert(item).to_string()
                    }
                    _ => return self.answer_side(words),
                })
            }

            fn answer_side(&mut self, words: &[&str]) -> Answer {
                Ok(match *words {
                    ["entry", key] => match self.entry(read(key)?) {
                        $entries::Entry::Occupied(entry) => {
                            format!("occupied {}={}", entry.key(), entry.get())
                        }
                        $entries::Entry::Vacant(entry) => format!("vacant {}", entry.key()),
                    },
                    ["occupied_get_mut", key, new] => {
                        let new = read(new)?;
                        written(Some(occupied!($entries, self, key).get_mut()), new)
                    }
                    ["occupied_insert", key, item] => {
                        let item = read(item)?;
                        occupied!($entries, self, key).insert(item).to_string()
                    }
                    ["occupied_into_mut", key, new] => {
                        let new = read(new)?;
                        written(Some(occupied!($entries, self, key).into_mut()), new)
                    }
                    ["occupied_remove", key] => occupied!($entries, self, key).remove().to_string(),
                    ["occupied_remove_entry", key] => {
                        owned(occupied!($entries, self, key).remove_entry())
                    }
                    ["vacant_insert", key, item, new] => {
                        let (item, new) = (read(item)?, read(new)?);
                        written(Some(vacant!($entries, self, key).insert(item)), new)
                    }
                    ["vacant_into_key", key] => vacant!($entries, self, key).into_key().to_string(),
                    _ => return Err(BAD),
                })
            }
        }
    };
}

any_map!(Map, map);
any_map!(HashMap, hash_map);

fn text((key, item): (&i64, &i64)) -> String {
    format!("{key}={item}")
}

fn owned((key, item): (i64, i64)) -> String {
    text((&key, &item))
}

/// The text of an item as it was. A number is added to it.
fn raised(add: i64) -> impl FnMut((&i64, &mut i64)) -> String {
    move |(key, item)| format!("{key}={}", raise(item, add))
}

fn raise(item: &mut i64, add: i64) -> i64 {
    mem::replace(item, item.wrapping_add(add))
}
