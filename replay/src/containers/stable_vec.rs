//! `StableVec`.

use super::{buckets, Container};
use crate::answers::{
    counted, done, option, read, renewed, result, steps_of, take_steps, write_all, written, Answer,
};
use crate::generate::{Generator, LONG, SHORT};
use crate::public_calls::{Calls, CUT};
use std::hash::{DefaultHasher, Hash, Hasher};
use std::mem;
use wasmi_collections::arena::{ArenaError, StableVec};

pub const CALLS: Calls = Calls {
    named: "len is_empty push get get_mut extend from_iter partial_cmp cmp hash",
    ports: "pop put clear",
    others: &[
        ("`new`", "on"),
        ("`Drop`, of items that need none", "on"),
        ("`get_disjoint_mut`", "swap"),
        ("`iter`, its `next`, `next_back` and `len`", "iter"),
        ("`for` over `&`", "for"),
        (
            "`iter_mut`, its `next`, `next_back` and `len`",
            "iter_mut rev_mut",
        ),
        ("`for` over `&mut`", "for_mut"),
        ("`clone`", "clone clone_in"),
        ("`==`", "eq"),
        ("`Debug`", "debug"),
        ("the port's `first`, `last`", "first last"),
        ("the port's `vec[index]`", "index"),
        ("the port's `vec[index] = item`", "index_mut"),
    ],
    never: &[
        ("`default`", CUT),
        ("`get_mut_ptr`", CUT),
        ("`size_hint` and `Debug` of an iterator", CUT),
        ("`Send`, `Sync`", CUT),
    ],
};

const ITEMS: [&str; 7] = [
    "get",
    "get",
    "get_mut N",
    "get_mut N",
    "put N",
    "index",
    "index_mut N",
];

const COMPARE: [&str; 5] = ["eq", "partial_cmp", "cmp", "hash", "hash"];

impl Generator {
    pub fn vec_call(&mut self, target: usize) -> String {
        let times = if self.len < target { 2 } else { 40 };
        if self.random.once_in(times) {
            return self.add("push");
        }
        match self.random.below(30) {
            0 | 15 => "len".into(),
            1 => "is_empty".into(),
            2..=9 | 29 => self.item(&ITEMS),
            10..=11 => self.swap(),
            12..=13 => format!("iter {}", self.steps()),
            14 => self.content(),
            16 => "room".into(),
            17 => "open_buckets".into(),
            18 => "slots".into(),
            19 => format!("place {}", self.index()),
            20 => format!("size_of_bucket_at {}", self.bucket()),
            21 => self.several(target, |first, count| format!("extend {first} {count}")),
            22 => self.beside(&COMPARE),
            23 => self.compared(&COMPARE),
            24 => self.buckets_written(),
            25 if self.len > SHORT && !self.seldom() => self.buckets_written(),
            25 => self.whole_written(),
            26 => self.cleared(),
            _ => self.end(),
        }
    }

    /// A call on the first or the last item, which a long vector keeps.
    fn end(&mut self) -> String {
        match self.random.below(4) {
            0 => "first".into(),
            1 => "last".into(),
            _ if self.len > LONG => "last".into(),
            _ => {
                let read = self.random.one_of(&["room", "open_buckets", "last"]);
                self.pending.push(read.into());
                self.emptied()
            }
        }
    }

    /// A walk that writes some items, or all those of some buckets. The next call reads them.
    fn buckets_written(&mut self) -> String {
        let (steps, first) = (self.steps(), self.value());
        if !self.seldom() {
            return self.written_by_steps(&steps, first);
        }
        self.pending.push("for".into());
        format!("slices_mut {steps} {first}")
    }
}

impl Container for StableVec<i64> {
    fn empty() -> Self {
        StableVec::new()
    }

    fn debug(&self) -> String {
        format!("{self:?}")
    }

    fn answer(&mut self, other: &mut Self, words: &[&str]) -> Answer {
        Ok(match *words {
            ["len"] => self.len().to_string(),
            ["is_empty"] => self.is_empty().to_string(),
            // By docs/DIFFERENCES.md, `StableVec::push`: no error here, but a panic past 2^32 - 32 items, which no run
            // has.
            ["push", item] => self.push(read(item)?).to_string(),
            ["get", index] => option(self.get(read(index)?)),
            ["get_mut", index, new] => written(self.get_mut(read(index)?), read(new)?),
            ["extend", first, count] => done(self.extend(counted(first, count)?)),
            ["from_iter", first, count] => done(*self = counted(first, count)?.collect()),
            // The port alone has the second one.
            ["clone"] | ["clone_in"] => done(*other = self.clone()),
            ["partial_cmp"] => format!("{:?}", (*self).partial_cmp(other)),
            ["cmp"] => format!("{:?}", (*self).cmp(other)),
            ["hash"] => hash_of(self).to_string(),
            ["iter", steps] => take_steps(self.iter(), steps_of(steps)?, i64::to_string),
            ["for"] => write_all(self.len(), &*self, i64::to_string),
            ["iter_mut", steps, first] => {
                take_steps(self.iter_mut(), steps_of(steps)?, renewed(read(first)?))
            }
            ["for_mut", first] => write_all(self.len(), self, renewed(read(first)?)),
            ["rev_mut", first] => {
                write_all(self.len(), self.iter_mut().rev(), renewed(read(first)?))
            }
            _ => return ports(self, words),
        })
    }
}

/// Makes a call that the port alone has.
fn ports(vec: &mut StableVec<i64>, words: &[&str]) -> Answer {
    Ok(match *words {
        ["pop"] => option(pop(vec)),
        ["first"] => option(vec.get(0)),
        ["last"] => option(vec.iter().next_back()),
        ["clear"] => done(*vec = StableVec::new()),
        ["put", index, new] => result(put(vec, read(index)?, read(new)?)),
        ["swap", first, second] => result(swap(vec, read(first)?, read(second)?).map(done)),
        // Its caller proves that there is an item.
        ["index", index] => match vec.get(read(index)?) {
            Some(item) => item.to_string(),
            None => "no item".into(),
        },
        ["index_mut", index, new] => match put(vec, read(index)?, read(new)?) {
            Ok(_) => "written".into(),
            Err(_) => "no item".into(),
        },
        ["slices_mut", steps, first] => slices_mut(vec, steps_of(steps)?, read(first)?),
        _ => return buckets::answer(vec.len(), |index| vec.get(index), words),
    })
}

/// The vector is made anew from the items before the last.
fn pop(vec: &mut StableVec<i64>) -> Option<i64> {
    let mut items: Vec<i64> = vec.iter().copied().collect();
    let last = items.pop();
    *vec = items.into_iter().collect();
    last
}

fn put(vec: &mut StableVec<i64>, index: usize, new: i64) -> Result<i64, ArenaError> {
    let item = vec.get_mut(index).ok_or(ArenaError::KeyOutOfBounds)?;
    Ok(mem::replace(item, new))
}

fn swap(vec: &mut StableVec<i64>, first: usize, second: usize) -> Result<(), ArenaError> {
    let [one, other] = vec.get_disjoint_mut([first, second])?;
    mem::swap(one, other);
    Ok(())
}

fn slices_mut(vec: &mut StableVec<i64>, steps: &str, first: i64) -> String {
    let len = vec.len();
    let line = buckets::slices(len, steps, |index| vec.get(index));
    let mut renew = renewed(first);
    for (start, size) in buckets::taken(len, steps).into_iter().flatten() {
        for index in start..len.min(start + size) {
            if let Some(item) = vec.get_mut(index) {
                renew(item);
            }
        }
    }
    line
}

/// What the standard library's hasher makes of a vector.
fn hash_of(vec: &StableVec<i64>) -> u64 {
    let mut hasher = DefaultHasher::new();
    vec.hash(&mut hasher);
    hasher.finish()
}
