//! `StableArena`.

use super::arenas::any_arena;
use super::{buckets, Container};
use crate::answers::{
    counted, done, index_written, indexed, key_of, keyed, keyed_renewed, numbered, option,
    overwritten, read, result, steps_of, take_steps, write_all, Answer,
};
use crate::generate::Generator;
use crate::public_calls::{Calls, CUT};
use std::fmt::Debug;
use std::mem;
use wasmi_collections::arena::{ArenaError, ArenaKey, StableArena};

pub const CALLS: Calls = Calls {
    named: "len is_empty alloc alloc_many get",
    ports: "last keys values clear",
    others: &[
        ("`new`", "on"),
        ("`from_iter`", "from_iter clone clone_in"),
        ("`get_mut`", "get_mut put"),
        ("`get_disjoint_mut`", "swap"),
        ("`arena[key]`", "index"),
        ("`arena[key] = item`", "index_mut"),
        ("`iter`, its `next`, `next_back` and `len`", "iter"),
        ("`for` over `&`", "for"),
        ("`iter_mut`, its `next`, `next_back` and `len`", "iter_mut rev_mut"),
        ("`for` over `&mut`", "for_mut"),
        ("`==`", "eq"),
        ("`into_usize`, `from_usize` of a key", "alloc get"),
        ("`Display` of an error", "get swap"),
    ],
    never: &[
        ("`default`", CUT),
        (
            "`Debug`",
            "the port's text is another (docs/DIFFERENCES.md, '`Debug` of `StableArena`'); the driver makes that \
            from the keys and the items",
        ),
        ("`get_mut_ptr`", CUT),
        ("`size_hint` and `Debug` of an iterator", CUT),
        ("`Send`, `Sync`", CUT),
    ],
};

impl Generator {
    pub fn stable_arena_call(&mut self, target: usize) -> String {
        let times = if self.len < target { 2 } else { 40 };
        if self.random.once_in(times) {
            return self.add("alloc");
        }
        match self.random.below(30) {
            0 => "len".into(),
            1 => "is_empty".into(),
            2..=9 => self.arena_item(),
            10..=11 => self.swap(),
            12..=13 => format!("iter {}", self.steps()),
            14 => self.content(),
            15 => "next_key".into(),
            16 => "room".into(),
            17 => "open_buckets".into(),
            18 => "slots".into(),
            19 => format!("place {}", self.index()),
            20 => format!("size_of_bucket_at {}", self.bucket()),
            21 => self.several_allocated(target),
            22 => self.beside(&["eq"]),
            23 => self.compared(&["eq"]),
            24 => self.some_written(),
            25 => self.all_written(),
            26 => self.cleared(),
            27 => "last".into(),
            28 => {
                let name = self.random.one_of(&["keys", "values"]);
                format!("{name} {}", self.steps())
            }
            _ => self.arena_item(),
        }
    }
}

any_arena!(StableArena);

/// Makes a call that the port alone has.
fn answer_own<Key: ArenaKey>(
    arena: &mut StableArena<Key, i64>,
    other: &mut StableArena<Key, i64>,
    words: &[&str],
) -> Answer {
    let mut items = arena.iter().map(|(_, item)| item);
    Ok(match *words {
        ["clone"] | ["clone_in"] => done(*other = items.copied().collect()),
        ["clear"] => done(*arena = StableArena::new()),
        ["last"] => option(items.next_back()),
        ["keys", steps] => {
            let keys = arena.iter().map(|(key, _)| key.into_usize());
            take_steps(keys, steps_of(steps)?, |key| key.to_string())
        }
        ["values", steps] => take_steps(items, steps_of(steps)?, i64::to_string),
        _ => {
            let get = |index| arena.get(Key::from_usize(index)?).ok();
            return buckets::answer(arena.len(), get, words);
        }
    })
}
