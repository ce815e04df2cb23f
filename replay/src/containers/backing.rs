//! Calls that one backing alone has. The Rust crate has none of them, so those of an ordered table are made on a
//! `BTreeMap` or a `BTreeSet` of the same keys, and those of a hashed one on Rust's.

use super::tables::rest;
use crate::answers::{done, option, read, step, Answer, BAD};
use crate::generate::{Generator, LONG, SHORT};
use crate::public_calls::Calls;
use std::collections::{BTreeMap, BTreeSet, HashMap, HashSet};
use std::mem;
use wasmi_collections::{Map, Set};

pub const ORDERED: Calls = Calls {
    others: &[
        ("the first of Rust's ordered ones", "first"),
        ("the last of these", "last"),
        ("`pop_first` of these", "pop_first"),
        ("`pop_last` of these", "pop_last"),
        ("`range` of these", "range"),
        ("`split_off` of these", "split_off"),
        ("`append` of these", "append"),
    ],
    ..Calls::NONE
};

pub const HASHED: Calls = Calls {
    others: &[
        ("`capacity` of Rust's", "capacity"),
        ("`shrink_to_fit` of Rust's", "shrink_to_fit"),
    ],
    ..Calls::NONE
};

impl Generator {
    /// Never on many keys.
    pub fn of_backing(&mut self, target: usize) -> String {
        if self.len.max(self.other_len) > LONG {
            return "len".into();
        }
        if self.is_ordered() {
            self.of_ordered(target)
        } else {
            self.random.one_of(&["capacity", "shrink_to_fit"]).into()
        }
    }

    fn of_ordered(&mut self, target: usize) -> String {
        let key = self.key(target);
        match self.random.below(10) {
            0 => "first".into(),
            1 => "last".into(),
            2 => "pop_first".into(),
            3 => "pop_last".into(),
            4..=7 => {
                let is_wide = self.len <= SHORT || self.seldom();
                let to = match self.random.below(8) {
                    0 => key,
                    1 => key.wrapping_sub(1),
                    _ if is_wide => self.key(target),
                    width => key.wrapping_add(width as i64),
                };
                format!("range {key} {to} {}", self.few_steps())
            }
            8 => {
                self.other_len = self.len;
                self.shown_both();
                format!("split_off {key}")
            }
            _ if self.len + self.other_len < target.max(SHORT) => {
                self.len += self.other_len;
                self.other_len = 0;
                self.shown_both();
                "append".into()
            }
            _ => "pop_first".into(),
        }
    }

    /// The next calls print both containers, where they have few keys, and go on with the other one.
    fn shown_both(&mut self) {
        if self.len + self.other_len > 2 * SHORT {
            return;
        }
        let calls = ["for".into(), self.exchanged(), "debug".into()];
        self.pending.extend(calls);
    }
}

pub trait Backing: Sized {
    /// Makes the call, and returns the line of its answer.
    fn answer_backing(&mut self, other: &mut Self, words: &[&str]) -> Answer;
}

/// The calls that an ordered table has, on a type of Rust's: with the names of the calls that lend its first and last
/// keys, what is lent as an item, and its text.
macro_rules! ordered {
    ($Table:ty, $Tree:ty, $first:ident, $last:ident, $item:expr, $text:expr) => {
        impl Backing for $Table {
            fn answer_backing(&mut self, other: &mut Self, words: &[&str]) -> Answer {
                Ok(match *words {
                    ["first"] => {
                        let found = on_tree(self, |tree: &mut $Tree| tree.$first().map($item));
                        option(found.map($text))
                    }
                    ["last"] => {
                        let found = on_tree(self, |tree: &mut $Tree| tree.$last().map($item));
                        option(found.map($text))
                    }
                    ["pop_first"] => {
                        option(on_tree(self, |tree: &mut $Tree| tree.pop_first()).map($text))
                    }
                    ["pop_last"] => {
                        option(on_tree(self, |tree: &mut $Tree| tree.pop_last()).map($text))
                    }
                    ["range", from, to, steps] => {
                        let (from, to, steps): (i64, i64, u16) =
                            (read(from)?, read(to)?, read(steps)?);
                        // Here such a range panics; the port's caller proves that it is none.
                        if from > to {
                            return Ok("no range".to_owned());
                        }
                        on_tree(self, |tree: &mut $Tree| {
                            walk_ends(tree.range(from..to).map($item), steps, $text)
                        })
                    }
                    ["split_off", key] => {
                        let key = read(key)?;
                        let split = on_tree(self, |tree: &mut $Tree| tree.split_off(&key));
                        done(*other = split.into_iter().collect())
                    }
                    ["append"] => {
                        let mut more = mem::take(other).into_iter().collect();
                        done(on_tree(self, |tree: &mut $Tree| tree.append(&mut more)))
                    }
                    _ => return Err(BAD),
                })
            }
        }
    };
}

ordered!(
    Map<i64, i64>,
    BTreeMap<i64, i64>,
    first_key_value,
    last_key_value,
    |(key, item)| (*key, *item),
    |(key, item)| format!("{key}={item}")
);
ordered!(Set<i64>, BTreeSet<i64>, first, last, |key| *key, |key| key
    .to_string());

/// Makes a call on a tree of the same keys.
fn on_tree<Table, Tree, T>(table: &mut Table, call: impl FnOnce(&mut Tree) -> T) -> T
where
    Table: Default + IntoIterator + FromIterator<Tree::Item>,
    Tree: IntoIterator + FromIterator<Table::Item>,
{
    let mut tree: Tree = mem::take(table).into_iter().collect();
    let outcome = call(&mut tree);
    *table = tree.into_iter().collect();
    outcome
}

macro_rules! hashed {
    ($Table:ty) => {
        impl Backing for $Table {
            fn answer_backing(&mut self, _: &mut Self, words: &[&str]) -> Answer {
                Ok(match *words {
                    ["capacity"] => (self.capacity() >= self.len()).to_string(),
                    ["shrink_to_fit"] => done(self.shrink_to_fit()),
                    _ => return Err(BAD),
                })
            }
        }
    };
}

hashed!(HashMap<i64, i64>);
hashed!(HashSet<i64>);

/// Takes so many items from an iterator, from the front and the back in turn, and the rest by a `for`.
fn walk_ends<I: DoubleEndedIterator>(
    mut items: I,
    steps: u16,
    mut text: impl FnMut(I::Item) -> String,
) -> String {
    let mut line = String::new();
    for number in 0..steps {
        let given = if number % 2 == 0 {
            items.next()
        } else {
            items.next_back()
        };
        line += &step(given.map(&mut text));
    }
    format!("{line}left {}", rest(items, text))
}
