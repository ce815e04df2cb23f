//! `ComponentVec`. A line names a key by its number.

use super::Container;
use crate::answers::{
    done, index_written, indexed, key_of, keyed, keyed_renewed, option, read, result, step,
    steps_of, written, Answer, BAD,
};
use crate::generate::{Generator, LONG, SHORT};
use crate::public_calls::{Calls, CUT};
use std::collections::VecDeque;
use wasmi_collections::arena::{ArenaError, ArenaKey, ComponentVec};

pub const CALLS: Calls = Calls {
    named: "clear set unset get get_mut",
    ports: "has clone iter iter_mut",
    others: &[
        ("`new`", "on"),
        ("`components[key]`", "index"),
        ("`components[key] = item`", "index_mut"),
        ("`==`", "eq"),
        ("`Debug`", "debug"),
        ("the port's `for` over `&`", "for"),
        ("the port's `for` over `&mut`", "for_mut"),
    ],
    never: &[("`default`", CUT), ("`Send`, `Sync`", CUT)],
};

const ITEMS: [&str; 6] = [
    "get",
    "get_mut N",
    "index",
    "has",
    "index_mut N",
    "index_mut N",
];

impl Generator {
    pub fn component_call(&mut self, target: usize) -> String {
        let times = if self.len < target { 2 } else { 10 };
        if self.random.once_in(times) {
            let number = self.settable(target);
            return self.set(number);
        }
        match self.random.below(20) {
            0 => "extent".into(),
            1..=6 => self.item(&ITEMS),
            7..=9 => format!("unset {}", self.index()),
            10..=11 => self.all_if_short(),
            12 => self.cleared(),
            13 => self.exchanged(),
            14 => self.set_alike(),
            15..=17 => self.components_walked(),
            18 => self.components_cloned(),
            _ => "eq".into(),
        }
    }

    /// A walk over the components, of which some are written and then read. Never over many.
    fn components_walked(&mut self) -> String {
        if self.len > LONG {
            return "extent".into();
        }
        let (steps, first) = (self.steps(), self.value());
        match self.random.below(4) {
            0 => self.read_by_steps(&steps),
            1 => format!("iter {steps}"),
            2 if self.len <= SHORT || self.seldom() => {
                let read = self.read_by_steps(&steps);
                self.pending.push(read);
                format!("for_mut {first}")
            }
            _ => self.written_by_steps(&steps, first),
        }
    }

    /// A clone takes the place of the other components, and is compared, mostly after a change. Never of many.
    fn components_cloned(&mut self) -> String {
        if self.len > LONG {
            return "extent".into();
        }
        self.other_len = self.len;
        self.pending.push("eq".into());
        if !self.random.once_in(3) {
            let change = self.item(&ITEMS);
            self.pending.push(change);
        }
        "clone".into()
    }

    /// A number to set: below the extent or past it, but not far, since places are kept for all numbers below it. Or
    /// the last number, at which no component can be.
    fn settable(&mut self, target: usize) -> usize {
        match self.random.below(16) {
            0 => usize::MAX,
            1 if self.most < usize::MAX => self.most,
            2..=3 if self.len < target => self.len + self.random.below(40),
            4..=8 if self.len <= target => self.len,
            9 => 0,
            _ => self.random.below(self.len.max(1)),
        }
    }

    fn set(&mut self, number: usize) -> String {
        if number < self.most {
            self.len = self.len.max(number + 1);
        }
        format!("set {number} {}", self.value())
    }

    /// Both containers begin anew with the same components, in another order, and are compared: as they are, with
    /// another component in one, or with a greater extent. Never a long one.
    fn set_alike(&mut self) -> String {
        if self.len.max(self.other_len) > LONG {
            return "eq".into();
        }
        let mut sets: Vec<String> = Vec::new();
        self.len = 0;
        for _ in 0..self.random.below(6) {
            // Each number once, so that the order is one for nothing.
            let number = self.len + self.random.below(6);
            if number < self.most.min(SHORT) {
                let set = self.set(number);
                sets.push(set);
            }
        }
        self.other_len = self.len;
        let mut calls = vec!["clear".to_owned()];
        calls.extend(sets.iter().cloned());
        calls.extend(["exchange", "clear"].map(String::from));
        calls.extend(sets.into_iter().rev());
        match self.random.below(3) {
            0 => calls.push(self.item_written()),
            1 => {
                let number = self.len;
                calls.push(self.set(number));
                calls.push(format!("unset {number}"));
            }
            _ => (),
        }
        calls.extend(["eq", "debug", "extent"].map(String::from));
        self.pending.extend(calls.into_iter().rev());
        "eq".into()
    }
}

/// By docs/DIFFERENCES.md, `ComponentVec`: no `extent`, `has`, `iter`, `reserve` and no `Clone` here. The extent stands
/// beside the components, and the others are made of it and of `get`.
pub struct Components<Key> {
    components: ComponentVec<Key, i64>,
    extent: usize,
}

impl<Key: ArenaKey> Components<Key> {
    /// By docs/DIFFERENCES.md, `ComponentVec::set`: the port fails at the last number, at which a sum overflows here.
    fn set(&mut self, key: Key, new: i64) -> Result<String, ArenaError> {
        let index = key.into_usize();
        let past = index.checked_add(1).ok_or(ArenaError::KeyOutOfBounds)?;
        self.extent = self.extent.max(past);
        Ok(option(self.components.set(key, new)))
    }

    /// The keys below the extent that have a component, ascending.
    fn keys(&self) -> impl DoubleEndedIterator<Item = Key> + '_ {
        let keys = (0..self.extent).filter_map(Key::from_usize);
        keys.filter(|key| self.components.get(*key).is_some())
    }

    fn clone(&self) -> Self {
        let mut components = ComponentVec::new();
        // The places without a component at the end are there in a clone, too, for equality.
        if let Some(last) = self.extent.checked_sub(1).and_then(Key::from_usize) {
            components.set(last, 0);
            components.unset(last);
        }
        for key in self.keys() {
            components.set(key, self.components[key]);
        }
        Components {
            components,
            extent: self.extent,
        }
    }

    /// Takes keys from an iterator, by steps.
    fn take_steps(
        &mut self,
        steps: &str,
        mut text: impl FnMut((Key, &mut i64)) -> String,
    ) -> String {
        let mut keys: VecDeque<Key> = self.keys().collect();
        let mut line = String::new();
        for letter in steps.chars() {
            let key = match letter {
                'f' => keys.pop_front(),
                _ => keys.pop_back(),
            };
            let entry = key.and_then(|key| Some((key, self.components.get_mut(key)?)));
            line += &step(entry.map(&mut text));
        }
        line
    }

    /// The extent, and each component.
    fn write_all(&mut self, mut text: impl FnMut((Key, &mut i64)) -> String) -> String {
        let mut line = format!("{}:", self.extent);
        for key in (0..self.extent).filter_map(Key::from_usize) {
            if let Some(component) = self.components.get_mut(key) {
                line += " ";
                line += &text((key, component));
            }
        }
        line
    }

    /// Makes a call on the component under a key.
    fn answer_component(&mut self, words: &[&str]) -> Answer {
        let components = &mut self.components;
        Ok(match *words {
            ["get", number] => option(components.get(key_of(number)?)),
            ["get_mut", number, new] => written(components.get_mut(key_of(number)?), read(new)?),
            ["set", number, new] => result(self.set(key_of(number)?, read(new)?)),
            ["has", number] => components.get(key_of(number)?).is_some().to_string(),
            ["unset", number] => option(components.unset(key_of(number)?)),
            ["index", number] => {
                let key: Key = key_of(number)?;
                indexed(|| components[key])
            }
            ["index_mut", number, new] => {
                let (key, new): (Key, i64) = (key_of(number)?, read(new)?);
                index_written(|| components[key] = new)
            }
            _ => return Err(BAD),
        })
    }
}

impl<Key: ArenaKey> PartialEq for Components<Key> {
    fn eq(&self, other: &Self) -> bool {
        self.components == other.components
    }
}

impl<Key: ArenaKey> Container for Components<Key> {
    fn empty() -> Self {
        Components {
            components: ComponentVec::new(),
            extent: 0,
        }
    }

    fn debug(&self) -> String {
        format!("{:?}", self.components)
    }

    fn answer(&mut self, other: &mut Self, words: &[&str]) -> Answer {
        let unchanged = |(key, item): (Key, &mut i64)| keyed((key, item));
        Ok(match *words {
            ["extent"] => self.extent.to_string(),
            ["clear"] => {
                self.extent = 0;
                done(self.components.clear())
            }
            ["clone"] => done(*other = self.clone()),
            ["iter", steps] => self.take_steps(steps_of(steps)?, unchanged),
            ["for"] => self.write_all(unchanged),
            ["iter_mut", steps, first] => {
                self.take_steps(steps_of(steps)?, keyed_renewed(read(first)?))
            }
            ["for_mut", first] => self.write_all(keyed_renewed(read(first)?)),
            _ => return self.answer_component(words),
        })
    }
}
