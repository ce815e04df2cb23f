//! What maps and sets have in common: the Rust crate's, which are ordered as it is built here, and Rust's hashed ones.
//!
//! By docs/DIFFERENCES.md, '`Map`, `Set` backing', the Rust crate has one backing in a build. With its feature
//! `hash-collections` its map and set are `hashbrown`'s with the standard library's state, behind calls of one line.
//! So are the standard library's, which stand here for them.

use crate::answers::{read, step};
use crate::generate::{Generator, EDGES, LONG, SHORT};

pub const BORROWED: &str =
    "the port takes a `&K` or a `&T` (docs/DIFFERENCES.md, 'look-ups of `Map` and `Set`')";

pub const OTHER_TEXT: &str =
    "the port's text is another (docs/DIFFERENCES.md, '`Debug` of `Map` and `Set`'); the driver makes that \
    from a walk";

/// How many of the keys that were put in are kept.
const RECENT: usize = 64;

/// Draws a call, up to a length.
type Draw = fn(&mut Generator, usize) -> String;

impl Generator {
    /// A key: mostly one that was put in, or of few enough that it may be there, as those below half as many again as
    /// the target.
    pub fn key(&mut self, target: usize) -> i64 {
        let end = (target + target / 2).max(6);
        match self.random.below(32) {
            0 => i64::MIN,
            1 => i64::MAX,
            2 => self.random.next() as i64,
            3..=4 => -(self.random.below(end) as i64),
            5..=20 if !self.recent.is_empty() => {
                let place = self.random.below(self.recent.len());
                self.recent[place]
            }
            _ => self.random.below(end) as i64,
        }
    }

    /// A key to put in.
    pub fn new_key(&mut self, target: usize) -> i64 {
        let key = self.key(target);
        if self.recent.len() < RECENT {
            self.recent.push(key);
        } else {
            let place = self.random.below(RECENT);
            self.recent[place] = key;
        }
        key
    }

    /// Few steps, or about as many as there are keys.
    pub fn few_steps(&mut self) -> u16 {
        let most = self.random.one_of(&[9, self.len.min(LONG) + 2]);
        self.random.below(most) as u16
    }

    /// True where a call goes over all keys: mostly not of many.
    pub fn is_whole(&mut self) -> bool {
        self.len <= SHORT || (self.len <= LONG && self.seldom())
    }

    /// A walk over one of these, or over what is taken out by `into_` and that name.
    pub fn walk(&mut self, parts: &[&str]) -> String {
        if !self.is_whole() {
            return "len".into();
        }
        let steps = self.few_steps();
        let is_taken = self.random.once_in(8);
        let part = self.random.one_of(parts);
        if !is_taken {
            return format!("{part} {steps}");
        }
        // What was taken out comes again.
        self.len = self.random.one_of(&EDGES);
        let again = format!("extend 0 1 {} {}", self.value(), self.len);
        self.pending.push(again);
        format!("into_{part} {steps}")
    }

    /// A call that takes several keys, or that begins anew with them. Few add any after the target.
    pub fn several_keys(&mut self, target: usize) -> String {
        let (key, item) = (self.new_key(target), self.value());
        let step = match self.random.below(8) {
            0 => 0,
            1 => -1,
            2 => 7,
            3 => self.random.next() as i64,
            4 => i64::MAX,
            _ => 1,
        };
        let count = self.count();
        let is_new = self.random.once_in(4);
        let grows = self.len < target || self.random.once_in(10);
        if (is_new && self.len > LONG) || !(is_new || grows) {
            return "len".into();
        }
        if is_new {
            self.len = count;
            format!("from_iter {key} {step} {item} {count}")
        } else {
            self.len += count;
            format!("extend {key} {step} {item} {count}")
        }
    }

    /// A call that changes the other container, or goes on with it. A clone is compared, mostly after a key was added
    /// or taken out, or after its keys came again in the order of a walk.
    pub fn table_beside(&mut self, target: usize, added: Draw, taken_out: Draw) -> String {
        if self.len.max(self.other_len) > LONG {
            return "len".into();
        }
        match self.random.below(6) {
            0 | 1 => return self.exchanged(),
            2 if self.len + self.other_len < target => {
                self.len += self.other_len;
                return "extend_ref".into();
            }
            _ => (),
        }
        self.other_len = self.len;
        self.pending.push("eq".into());
        match self.random.below(4) {
            0 => {
                let change = added(self, target);
                self.pending.push(change);
            }
            1 => {
                let change = taken_out(self, target);
                self.pending.push(change);
            }
            2 => {
                let again = ["extend_ref", "clear"].map(String::from);
                self.pending.extend(again);
            }
            _ => (),
        }
        "clone".into()
    }

    /// A call that drops some keys, or seldom all. Never of many.
    pub fn thinned(&mut self) -> String {
        if self.len > LONG {
            return "len".into();
        }
        if self.random.once_in(8) {
            self.len = 0;
            return "clear".into();
        }
        let add = self.random.below(3);
        let mask = match self.random.below(8) {
            0 => 1,
            1 => 0,
            2 => self.random.next() as i64,
            3..=4 => 7,
            _ => -1,
        };
        format!("retain {mask} {add}")
    }

    pub fn table_reserved(&mut self) -> String {
        format!("reserve {}", self.random.below(300))
    }
}

/// The key that a word is. A look-up also takes what a key can be borrowed as, so its type is said here.
pub fn number(word: &str) -> Result<i64, &'static str> {
    read(word)
}

/// So many keys, each a step from the one before, past the ends of `i64` too, by three words.
pub fn stepped(
    first: &str,
    step: &str,
    count: &str,
) -> Result<impl Iterator<Item = i64>, &'static str> {
    let (first, step, count): (i64, i64, u16) = (read(first)?, read(step)?, read(count)?);
    Ok((0..count).map(move |place| first.wrapping_add(step.wrapping_mul(place.into()))))
}

/// Takes so many items from an iterator, asks it how many are left, and takes these by a `for`.
pub fn walk<I: ExactSizeIterator>(
    steps: u16,
    mut items: I,
    mut text: impl FnMut(I::Item) -> String,
) -> String {
    let line = front(steps, &mut items, &mut text);
    format!("{line}left {} {}", items.len(), rest(items, text))
}

/// The same of an iterator that doesn't know how many are left.
pub fn walk_all<'a>(steps: u16, mut items: impl Iterator<Item = &'a i64>) -> String {
    let line = front(steps, &mut items, &mut i64::to_string);
    format!("{line}left {}", rest(items, i64::to_string))
}

fn front<I: Iterator>(
    steps: u16,
    items: &mut I,
    text: &mut impl FnMut(I::Item) -> String,
) -> String {
    (0..steps)
        .map(|_| step(items.next().map(&mut *text)))
        .collect()
}

pub fn rest<I: Iterator>(items: I, mut text: impl FnMut(I::Item) -> String) -> String {
    items.map(|item| text(item) + " ").collect()
}
