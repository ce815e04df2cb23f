//! `Set`: the Rust crate's, which is ordered, and Rust's hashed one.

use super::backing::Backing;
use super::tables::{number, stepped, walk, walk_all, BORROWED, OTHER_TEXT};
use super::Container;
use crate::answers::{braced, done, option, read, write_all, Answer, BAD};
use crate::generate::{Generator, LONG, SHORT};
use crate::public_calls::{Calls, CUT};
use std::collections::HashSet;
use std::mem;
use wasmi_collections::Set;

pub const CALLS: Calls = Calls {
    named: "clear len is_empty reserve contains get insert replace remove take retain extend \
        from_iter clone is_subset is_superset is_disjoint union intersection difference \
        symmetric_difference",
    others: &[
        ("`default`, as the port's `new`", "on"),
        ("`iter`, its `next` and `len`", "iter"),
        ("`into_iter`, its `next` and `len`", "into_iter"),
        ("`for` over `&`", "for"),
        ("`extend` by reference", "extend_ref"),
        ("`==`", "eq"),
        ("`&a & &b`", "bitand"),
        ("`&a \\| &b`", "bitor"),
        ("`&a ^ &b`", "bitxor"),
        ("`&a - &b`", "sub"),
    ],
    never: &[
        ("look-ups by a `&Q`", BORROWED),
        ("`Debug`", OTHER_TEXT),
        ("`size_hint`, `Clone` and `Debug` of an iterator", CUT),
        ("`Send`, `Sync`", CUT),
    ],
    ..Calls::NONE
};

impl Generator {
    pub fn set_call(&mut self, target: usize) -> String {
        let times = if self.len < target { 2 } else { 40 };
        if self.random.once_in(times) {
            return self.set_added(target);
        }
        match self.random.below(22) {
            0 => "len".into(),
            1 => "is_empty".into(),
            2..=6 => self.set_looked_up(target),
            7..=8 => self.set_taken_out(target),
            9..=10 => self.both(),
            11..=12 => self.walk(&["iter"]),
            13 if self.is_whole() => self.random.one_of(&["for", "debug"]).into(),
            13 => "len".into(),
            14 => self.several_keys(target),
            15..=16 => self.table_beside(target, Generator::set_added, Generator::set_taken_out),
            17 => "eq".into(),
            18 => self.thinned(),
            19..=20 => self.of_backing(target),
            _ => self.table_reserved(),
        }
    }

    fn set_added(&mut self, target: usize) -> String {
        self.len += 1;
        let key = self.new_key(target);
        let name = self.random.one_of(&["insert", "insert", "replace"]);
        format!("{name} {key}")
    }

    fn set_looked_up(&mut self, target: usize) -> String {
        let (key, _) = (self.key(target), self.value());
        let names = ["get", "contains", "contains", "contains", "contains"];
        format!("{} {key}", self.random.one_of(&names))
    }

    fn set_taken_out(&mut self, target: usize) -> String {
        let name = self.random.one_of(&["remove", "take"]);
        format!("{name} {}", self.key(target))
    }

    /// A call on two sets. What walks over many is rare.
    fn both(&mut self) -> String {
        if self.len.max(self.other_len) > LONG {
            return "len".into();
        }
        let steps = self.few_steps();
        let walks = self.len + self.other_len <= SHORT || self.seldom();
        match self.random.below(if walks { 11 } else { 7 }) {
            0 => "is_subset".into(),
            1 => "is_superset".into(),
            2 => "is_disjoint".into(),
            3 => self.made("bitand", 0),
            4 => self.made("bitor", self.other_len),
            5 => self.made("bitxor", self.other_len),
            6 => self.made("sub", 0),
            7 => format!("union {steps}"),
            8 => format!("intersection {steps}"),
            9 => format!("difference {steps}"),
            _ => format!("symmetric_difference {steps}"),
        }
    }

    /// An operator. The set that it makes, which has no more elements than this one and so many, takes the place of the
    /// other.
    fn made(&mut self, name: &str, more: usize) -> String {
        self.other_len = self.len + more;
        name.into()
    }
}

/// Calls on a set. Each is asked where the one before knows no such call.
trait AnySet: Backing {
    fn answer_set(&mut self, other: &mut Self, words: &[&str]) -> Answer;

    fn answer_both(&mut self, other: &mut Self, words: &[&str]) -> Answer;

    fn answer_key(&mut self, words: &[&str]) -> Answer;
}

/// Writes the calls on a type of sets.
macro_rules! any_set {
    ($Set:ident) => {
        impl Container for $Set<i64> {
            fn empty() -> Self {
                Self::default()
            }

            fn debug(&self) -> String {
                braced(self.iter().map(i64::to_string))
            }

            fn answer(&mut self, other: &mut Self, words: &[&str]) -> Answer {
                let answer = self.answer_backing(other, words);
                answer.or_else(|_| self.answer_set(other, words))
            }
        }

        impl AnySet for $Set<i64> {
            fn answer_set(&mut self, other: &mut Self, words: &[&str]) -> Answer {
                Ok(match *words {
                    ["len"] => self.len().to_string(),
                    ["is_empty"] => self.is_empty().to_string(),
                    ["clear"] => done(self.clear()),
                    ["reserve", count] => done(self.reserve(read::<u16>(count)?.into())),
                    ["extend", key, step, item, count] => {
                        read::<i64>(item)?;
                        done(self.extend(stepped(key, step, count)?))
                    }
                    ["from_iter", key, step, item, count] => {
                        read::<i64>(item)?;
                        done(*self = stepped(key, step, count)?.collect())
                    }
                    ["extend_ref"] => done(self.extend(&*other)),
                    ["clone"] => done(*other = self.clone()),
                    ["retain", mask, add] => {
                        let (mask, _): (i64, i64) = (read(mask)?, read(add)?);
                        let mut calls = 0_u64;
                        self.retain(|element| {
                            calls += 1;
                            *element & mask != 0
                        });
                        calls.to_string()
                    }
                    ["iter", steps] => walk(read(steps)?, self.iter(), i64::to_string),
                    ["into_iter", steps] => {
                        walk(read(steps)?, mem::take(self).into_iter(), |key| {
                            key.to_string()
                        })
                    }
                    ["for"] => write_all(self.len(), &*self, i64::to_string),
                    _ => return self.answer_both(other, words),
                })
            }

            fn answer_both(&mut self, other: &mut Self, words: &[&str]) -> Answer {
                Ok(match *words {
                    ["is_subset"] => self.is_subset(other).to_string(),
                    ["is_superset"] => self.is_superset(other).to_string(),
                    ["is_disjoint"] => self.is_disjoint(other).to_string(),
                    ["union", steps] => walk_all(read(steps)?, self.union(other)),
                    ["intersection", steps] => walk_all(read(steps)?, self.intersection(other)),
                    ["difference", steps] => walk_all(read(steps)?, self.difference(other)),
                    ["symmetric_difference", steps] => {
                        walk_all(read(steps)?, self.symmetric_difference(other))
                    }
                    // By docs/DIFFERENCES.md, '`&a & &b`': operators here.
                    ["bitand"] => done(*other = &*self & &*other),
                    ["bitor"] => done(*other = &*self | &*other),
                    ["bitxor"] => done(*other = &*self ^ &*other),
                    ["sub"] => done(*other = &*self - &*other),
                    _ => return self.answer_key(words),
                })
            }

            fn answer_key(&mut self, words: &[&str]) -> Answer {
                Ok(match *words {
                    // By docs/DIFFERENCES.md, `Set::insert` and `Set::replace`: no error here.
                    ["insert", key] => self.insert(read(key)?).to_string(),
                    ["replace", key] => option(self.replace(read(key)?)),
                    ["get", key] => option(self.get(&number(key)?)),
                    ["contains", key] => self.contains(&number(key)?).to_string(),
                    ["remove", key] => self.remove(&number(key)?).to_string(),
                    ["take", key] => option(self.take(&number(key)?)),
                    _ => return Err(BAD),
                })
            }
        }
    };
}

any_set!(Set);
any_set!(HashSet);
