//! What the words of a line say, and the lines of the output, as `crates/wasmi_replay/src/answers.rt` writes them.

use std::fmt::Display;
use std::mem;
use std::panic::{self, AssertUnwindSafe};
use std::str::FromStr;
use wasmi_collections::arena::ArenaKey;

/// The line of an answer. The error is that of a line that makes no call.
pub type Answer = Result<String, &'static str>;

/// Of a line that names no call of the container, or not with its arguments.
pub const BAD: &str = "bad line";

/// The number that a word is.
pub fn read<N: FromStr>(word: &str) -> Result<N, &'static str> {
    word.parse().map_err(|_| BAD)
}

/// The key whose number a word is.
pub fn key_of<Key: ArenaKey>(word: &str) -> Result<Key, &'static str> {
    Key::from_usize(read(word)?).ok_or("no key")
}

/// The steps of an iteration: an `f` for each from the front, a `b` for each from the back.
pub fn steps_of(word: &str) -> Result<&str, &'static str> {
    let are_known = word.bytes().all(|step| step == b'f' || step == b'b');
    are_known.then_some(word).ok_or(BAD)
}

/// So many numbers, each one more than the one before, by two words.
pub fn counted(
    first: &str,
    count: &str,
) -> Result<impl ExactSizeIterator<Item = i64>, &'static str> {
    let (first, count): (i64, u16) = (read(first)?, read(count)?);
    Ok((0..count).map(move |step| first.wrapping_add(step.into())))
}

/// The answer of a call that returns nothing.
pub fn done<T>(_: T) -> String {
    "done".to_owned()
}

/// The value, or `none`.
pub fn option(found: Option<impl Display>) -> String {
    found.map_or("none".to_owned(), |found| found.to_string())
}

/// The value, or `error` and the text of the error.
pub fn result(outcome: Result<impl Display, impl Display>) -> String {
    match outcome {
        Ok(found) => found.to_string(),
        Err(error) => format!("error {error}"),
    }
}

/// What an item was. It becomes the number.
pub fn written(found: Option<&mut i64>, new: i64) -> String {
    option(found.map(|item| mem::replace(item, new)))
}

/// The same of a call that may fail.
pub fn overwritten(outcome: Result<&mut i64, impl Display>, new: i64) -> String {
    result(outcome.map(|item| mem::replace(item, new)))
}

/// What a read by index returns. By docs/DIFFERENCES.md, '`StableArena` by index', '`Arena` by index' and
/// '`ComponentVec` by index', it panics here where the key reads nothing, and the port's caller proves that it does.
pub fn indexed(read: impl FnOnce() -> i64) -> String {
    unless_it_panics(read).map_or("no item".to_owned(), |item| item.to_string())
}

/// The same of a write by index.
pub fn index_written(write: impl FnOnce()) -> String {
    let outcome = unless_it_panics(write);
    outcome.map_or("no item", |()| "written").to_owned()
}

fn unless_it_panics<T>(access: impl FnOnce() -> T) -> Option<T> {
    let hook = panic::take_hook();
    panic::set_hook(Box::new(|_| {}));
    let outcome = panic::catch_unwind(AssertUnwindSafe(access));
    panic::set_hook(hook);
    outcome.ok()
}

/// What a step of an iteration came to.
pub fn step(given: Option<String>) -> String {
    given.unwrap_or_else(|| "none".to_owned()) + " "
}

/// Takes items from an iterator, by steps, and then asks how many are left.
pub fn take_steps<I: DoubleEndedIterator + ExactSizeIterator>(
    mut items: I,
    steps: &str,
    mut text: impl FnMut(I::Item) -> String,
) -> String {
    let mut line = String::new();
    for letter in steps.chars() {
        let given = match letter {
            'f' => items.next(),
            _ => items.next_back(),
        };
        line += &step(given.map(&mut text));
    }
    format!("{line}left {}", items.len())
}

/// How many items there are, and each.
pub fn write_all<I: IntoIterator>(
    len: usize,
    items: I,
    mut text: impl FnMut(I::Item) -> String,
) -> String {
    let mut line = format!("{len}:");
    for item in items {
        line += " ";
        line += &text(item);
    }
    line
}

/// The text of an item of an arena.
pub fn keyed<Key: ArenaKey>((key, item): (Key, &i64)) -> String {
    format!("{}={item}", key.into_usize())
}

/// The text of an item as it was. The items become the numbers from `first` on.
pub fn renewed(first: i64) -> impl FnMut(&mut i64) -> String {
    let mut new = first;
    move |item| {
        let old = mem::replace(item, new);
        new = new.wrapping_add(1);
        old.to_string()
    }
}

/// The same of an item of an arena.
pub fn keyed_renewed<Key: ArenaKey>(first: i64) -> impl FnMut((Key, &mut i64)) -> String {
    let mut renewed = renewed(first);
    move |(key, item)| format!("{}={}", key.into_usize(), renewed(item))
}

/// The text by `{:?}` of a map or a set.
pub fn braced(texts: impl Iterator<Item = String>) -> String {
    format!("{{{}}}", texts.collect::<Vec<_>>().join(", "))
}

/// The same of a map from the numbers of keys to items, as the port's text of an arena is. The Rust crate's shows the
/// private fields.
pub fn numbered<'a>(items: impl Iterator<Item = &'a i64>) -> String {
    braced(
        items
            .enumerate()
            .map(|(number, item)| format!("{number}: {item}")),
    )
}
