//! Where items lie, which the Rust crate keeps private: computed from a length and from `get`, by a walk over the
//! buckets.

use crate::answers::{option, read, step, steps_of, write_all, Answer, BAD};
use std::collections::VecDeque;

/// How many buckets there can be.
const BUCKETS: usize = 27;

/// Makes a call on where the items lie, of a vector of so many.
pub fn answer<'a>(len: usize, get: impl Fn(usize) -> Option<&'a i64>, words: &[&str]) -> Answer {
    Ok(match *words {
        ["room"] => (slots(len) - len).to_string(),
        ["open_buckets"] => open(len).count().to_string(),
        ["slots"] => slots(len).to_string(),
        ["place", index] => option(place(read(index)?)),
        ["size_of_bucket_at", number] => option(buckets().nth(read(number)?).map(|(_, size)| size)),
        ["slices", steps] => slices(len, steps_of(steps)?, get),
        // How many slots a bucket has, and its items; or `none` if it isn't open.
        ["bucket", number] => match open(len).nth(read(number)?) {
            Some((start, size)) => {
                write_all(size, (start..start + size).map_while(get), i64::to_string)
            }
            None => "none".into(),
        },
        _ => return Err(BAD),
    })
}

/// The first index of a bucket, and how many slots it has.
fn buckets() -> impl Iterator<Item = (usize, usize)> {
    let mut start = 0;
    (0..BUCKETS).map(move |bucket| {
        let size = 32 * 2_usize.pow(bucket as u32);
        start += size;
        (start - size, size)
    })
}

/// The buckets of a vector of so many items.
fn open(len: usize) -> impl Iterator<Item = (usize, usize)> {
    buckets().take_while(move |(start, _)| *start < len)
}

fn slots(len: usize) -> usize {
    open(len).map(|(_, size)| size).sum()
}

/// The bucket and the slot of an index. `None` if no vector is so long.
fn place(index: usize) -> Option<String> {
    let mut places = buckets().enumerate();
    let (bucket, (start, _)) = places.find(|(_, (start, size))| index < start + size)?;
    Some(format!("{bucket} {}", index - start))
}

/// Takes buckets from both ends, each as the slice of its items, and then says how many are left.
pub fn slices<'a>(len: usize, steps: &str, get: impl Fn(usize) -> Option<&'a i64>) -> String {
    let parts = taken(len, steps);
    let mut line = String::new();
    for part in &parts {
        line += &step(part.map(|(start, size)| {
            let items: Vec<_> = (start..start + size).map_while(&get).collect();
            format!("{items:?}")
        }));
    }
    let left = open(len).count() - parts.iter().flatten().count();
    format!("{line}left {left}")
}

/// The buckets that are taken from both ends, each with its first index and its slots, or `None` past the end.
pub fn taken(len: usize, steps: &str) -> Vec<Option<(usize, usize)>> {
    let mut parts: VecDeque<_> = open(len).collect();
    let take = |step| match step {
        'f' => parts.pop_front(),
        _ => parts.pop_back(),
    };
    steps.chars().map(take).collect()
}
